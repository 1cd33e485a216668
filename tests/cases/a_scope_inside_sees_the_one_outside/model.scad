a = 1;
union() { b = a + 1; union() { a = 5; echo(a, b); } echo(a); }