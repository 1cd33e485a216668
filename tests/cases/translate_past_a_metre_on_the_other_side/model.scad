cube(1);
translate([0, -1000.001, 0]) cube(1);
