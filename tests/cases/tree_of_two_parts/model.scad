cube(1);
sphere(5);
