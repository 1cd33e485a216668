cube([3,3,0.4]); translate([3,3,0]) cube([3,3,0.4]);
