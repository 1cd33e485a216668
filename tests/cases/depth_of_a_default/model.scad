function f(n, a = f(n + 1)) = a;
echo(f(0));