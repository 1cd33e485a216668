a = 1;
{ a = 2; echo(a); }
echo(a);