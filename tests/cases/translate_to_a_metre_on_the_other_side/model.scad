translate([-1000, -1000, -1000]) cube(1);
translate([999, 999, 999]) cube(1);
