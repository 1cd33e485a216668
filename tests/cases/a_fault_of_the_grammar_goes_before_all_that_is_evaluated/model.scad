echo(1);
cube(1/0);
x = ;