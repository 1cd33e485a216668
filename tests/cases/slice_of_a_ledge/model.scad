cube([1, 1, 0.4]);
translate([0, 0, 0.2]) cube([2, 1, 0.4]);
