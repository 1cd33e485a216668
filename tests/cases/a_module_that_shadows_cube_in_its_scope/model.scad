module m() { module cube(a) echo(a); cube(7); }
m();
cube(1);