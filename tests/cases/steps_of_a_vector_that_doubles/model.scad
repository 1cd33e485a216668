function d(v, n) = n == 0 ? v : d(concat(v, v), n - 1);
echo(len(d([1, 2], 12)));
x = d([1, 2], 24);