echo(1);
echo("two");
cube(-1);
echo(3);