function v(n) = n == 0 ? [] : [v(n - 1)];
echo(len(v(199)));
echo(v(200));