module m() children([2:-1:0]);
m() { cube(1); sphere(1, $fn = 5); cylinder(1, 1, 1, $fn = 5); }