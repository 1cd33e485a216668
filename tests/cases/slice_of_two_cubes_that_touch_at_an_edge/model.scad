cube(1);
translate([1, 1, 0]) cube(1);
