difference(){cube([7,6,2]); translate([1,1,0.5]) cube([5,4,3]);}
