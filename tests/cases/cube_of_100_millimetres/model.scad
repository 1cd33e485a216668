cube(100);
