cube(1
