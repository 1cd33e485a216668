cube(1)
