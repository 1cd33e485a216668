echo(f(3));
function f(x) = x * x;