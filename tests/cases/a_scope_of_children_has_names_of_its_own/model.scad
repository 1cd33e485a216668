a = 1;
union() { a = 2; echo(a); }
echo(a);