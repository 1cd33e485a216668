cube([2,2,0.3]); translate([0,0,2]) cube([3,2,0.3]); translate([0,0,4]) cube([2,3,0.3]);
