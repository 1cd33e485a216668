cube(1/0);
