cube([4,3,0.4]); translate([1,1,1]) cube([3,4,0.4]);
