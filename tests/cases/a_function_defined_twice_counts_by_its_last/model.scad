function f() = 1;
echo(f());
function f() = 2;