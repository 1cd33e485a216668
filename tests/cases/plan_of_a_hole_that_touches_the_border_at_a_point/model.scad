difference(){cube([8,8,0.4]); translate([4,0,-1]) rotate(45) cube([3,3,2]);}
