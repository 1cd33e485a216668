assert(1 > 2, "no"); cube(1);
