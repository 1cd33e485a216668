difference(){cube([8,6,0.6]); translate([2,2,-1]) cube([2,2,3]);}
