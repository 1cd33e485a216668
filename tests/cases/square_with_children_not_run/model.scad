linear_extrude(1) square(1) cube(1/0);
