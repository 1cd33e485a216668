module m() children(["a", 1, [0], undef, true, 7]);
m() { cube(1); sphere(1, $fn = 5); cylinder(1, 1, 1, $fn = 5); }