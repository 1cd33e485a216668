translate([0, 0, -5]) cube(1);
