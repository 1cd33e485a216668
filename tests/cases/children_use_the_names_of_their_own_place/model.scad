x = 1;
module m(x) { x = 5; children(); }
m(2) echo(x);