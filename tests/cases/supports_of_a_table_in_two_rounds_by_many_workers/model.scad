cube([1,1,1.5]); translate([0,0,1.4]) cube([3,1,0.1]);
