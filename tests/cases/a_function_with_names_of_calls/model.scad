function f() = $k;
function g($k = 1) = f();
$k = 7;
echo(f(), g(), g(5), f($k = 8));