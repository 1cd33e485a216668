function r(n) = n == 0 ? 0 : r(n - 1);
echo(r(49997));