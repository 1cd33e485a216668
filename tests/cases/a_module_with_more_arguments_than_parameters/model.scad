module m(a) echo(a);
m(1, 2, z = 3);