echo(PI);
PI = 3;
echo(PI);