module m() { $x = 5; children(); }
m() echo($x);