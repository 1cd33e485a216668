echo("none");
