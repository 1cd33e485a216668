cube(99);
