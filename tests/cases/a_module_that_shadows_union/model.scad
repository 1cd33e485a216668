module union() echo($children);
union() { cube(1); cube(1); }