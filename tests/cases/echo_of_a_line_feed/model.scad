echo("a
b\nc");