rotate([45,35,0]) cube(4);
