intersection() { cube(1); union(); }
sphere(1, $fn = 5);