module m() children(9);
m() { a = 1/0; cube(1); }