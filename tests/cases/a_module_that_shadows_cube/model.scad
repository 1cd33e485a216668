module cube(a) sphere(a, $fn = 5);
cube(1);