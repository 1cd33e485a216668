module row(n){for(i=[0:n-1]) translate([i*4,0,0]) children();} row(3) difference(){cube([3,3,0.4]); translate([1,1,-1]) cube([1,1,3]);}
