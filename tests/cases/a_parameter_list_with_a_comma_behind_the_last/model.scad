module m(a, b = 2, ) echo(a, b, );
m(1, );