function f(n) = n == 0 ? 1 : n * f(n - 1);
echo(f(12));