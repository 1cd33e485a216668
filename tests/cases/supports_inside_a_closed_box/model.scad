difference() { cube([12,12,8]); translate([2,2,2]) cube([8,8,4]); }
