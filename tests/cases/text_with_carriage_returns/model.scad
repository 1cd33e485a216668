cube(1);
cube(1/0);
