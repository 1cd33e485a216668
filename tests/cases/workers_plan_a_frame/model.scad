difference(){cube([9,9,0.4]); translate([3,3,-1]) cube([3,3,3]);}
