x = echo("first", a = 1) 5;
echo(x);