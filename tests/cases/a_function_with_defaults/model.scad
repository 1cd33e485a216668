function f(a, b = 2, c = a) = [a, b, c];
a = 9;
echo(f(1), f(c = 3, a = 4), f());