a = a; module m() { a = a; echo(a); }
m();