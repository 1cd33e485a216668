module m() echo($children);
m() { ; a = 1; cube(1); if (false) cube(1); { cube(1); cube(1); } for (i = []) ; }