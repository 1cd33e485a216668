function v(n) = n == 0 ? [] : concat([v(n - 1)]);
echo(len(v(199)));
x = v(200);