cylinder(h = 1, r = 1, $fn = 1e9);
