module linear_extrude(h) children();
linear_extrude(3) cube(1);