x = assert(true) 1;
echo(x);
y = assert(x > 1) 2;