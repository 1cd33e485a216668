module up() translate([0, 0, 7]) children();
up() cube(1);