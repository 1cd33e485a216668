module m() { function f() = 1; echo(f()); }
function f() = 2;
m();
echo(f());