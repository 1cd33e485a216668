module m() union() echo($children);
m() { cube(1); cube(1); }