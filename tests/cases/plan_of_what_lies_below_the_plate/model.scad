translate([0,0,-3]) cube(2);
