cube(3);
