echo(1);
cube(-1);
