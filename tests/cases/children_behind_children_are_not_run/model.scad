module m() children() cube(9);
m() sphere(1, $fn = 5);