for (i = [1:4096]) cube(1);
 cylinder(h = 1, r = 1, $fn = 90000);