module m(a, b = 2, c = a) echo(a, b, c);
a = 9;
m(1);
m(c = 3, a = 4);