cube(;
