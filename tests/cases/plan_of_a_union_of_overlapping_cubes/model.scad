cube([5,3,0.4]); translate([3,1,0]) cube([4,5,0.4]);
