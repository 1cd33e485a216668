module m() for (i = [$children - 1 : -1 : 0]) children(i);
m() { cube(1); sphere(1, $fn = 5); cylinder(1, 1, 1, $fn = 5); }