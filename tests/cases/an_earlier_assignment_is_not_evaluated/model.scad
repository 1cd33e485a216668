a = 1/0;
a = 2;
echo(a);