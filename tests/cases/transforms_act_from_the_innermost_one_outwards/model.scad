scale([1, 1, 3]) translate([0, 0, 2]) cube(1);
translate([0, 0, 2]) scale([1, 1, 3]) cube(1);