f = 1;
echo(f(2));