echo(1); cube(
