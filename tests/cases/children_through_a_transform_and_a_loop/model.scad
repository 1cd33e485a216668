module m() { rotate(1) for (i = [0:$children - 1]) children(i); }
m() { echo("a"); echo("b"); }