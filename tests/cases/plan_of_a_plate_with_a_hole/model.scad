difference(){cube([10,10,0.2]); translate([4,4,-1]) cube([2,2,3]);}
