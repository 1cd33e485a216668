cube([3,3,0.4]); translate([3.001,0,0]) cube([3,3,0.4]);
