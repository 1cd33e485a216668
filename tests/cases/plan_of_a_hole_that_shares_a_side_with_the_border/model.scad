difference(){cube([8,6,0.4]); translate([3,0,-1]) cube([2,3,3]);}
