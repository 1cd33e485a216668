echo(1); cube("a");
