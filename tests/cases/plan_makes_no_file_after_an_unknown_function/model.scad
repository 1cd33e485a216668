cube(width(2));
