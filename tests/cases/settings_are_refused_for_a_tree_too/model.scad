cube(2);
