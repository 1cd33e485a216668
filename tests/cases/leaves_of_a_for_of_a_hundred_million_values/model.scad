for (i = [0:1e8]) cube(1);
