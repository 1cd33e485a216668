function d(s, n) = n == 0 ? s : d(str(s, s), n - 1);
echo(len(d("ab", 12)));
x = d("ab", 24);