echo(1e10);
