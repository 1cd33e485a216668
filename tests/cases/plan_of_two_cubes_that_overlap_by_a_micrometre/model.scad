cube([3,3,0.4]); translate([2.999,1,0]) cube([3,3,0.4]);
