module m() children(-0.9);
m() { cube(1); sphere(1, $fn = 5); cylinder(1, 1, 1, $fn = 5); }