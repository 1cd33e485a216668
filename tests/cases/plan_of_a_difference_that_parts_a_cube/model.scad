difference(){cube([8,3,0.4]); translate([3.5,-1,-1]) cube([1,5,3]);}
