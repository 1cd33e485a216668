module m() for (i = [1:2]) { $k = i; children(); }
m() { a = $k * 10; echo(a); }