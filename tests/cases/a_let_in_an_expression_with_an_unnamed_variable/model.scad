x = let (1/0) 2;
echo(x);