difference(){cube([14,11,0.4]); translate([5,4,-1]) cube([3,2.5,3]);}
