module m() echo($x);
union($x = 1) m();
translate([0, 0, 1], $x = 2) { m(); }
m();