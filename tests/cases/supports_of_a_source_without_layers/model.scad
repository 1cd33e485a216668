echo(1);
