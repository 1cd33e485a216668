echo("first"); cube("10");
