echo($x = 1) echo($x);
assert(true, $x = 2) echo($x);
x = echo($y = 3) $y;
echo(x);