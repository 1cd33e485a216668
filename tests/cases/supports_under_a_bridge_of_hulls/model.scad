hull() { translate([0,0,6]) cube([2,6,2]); translate([14,0,6]) cube([2,6,2]); }
cube([2,6,6]);
