cylinder(h = 0.4, r = 5, $fn = 6);
