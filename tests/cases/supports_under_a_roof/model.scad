difference() { cube([14,12,8]); translate([2,-1,-1]) cube([10,14,6]); }
