cube(;
x = "a