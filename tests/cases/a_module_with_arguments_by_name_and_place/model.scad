module m(a, b, c) echo(a, b, c);
m(1, c = 3, 2);
m(b = 1, 5);