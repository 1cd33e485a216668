module m() echo($x);
$x = 1;
m();
union() { $x = 2; m(); }
m();
m($x = 3);