module m() children($x = 3);
$x = 1;
m() echo($x);