linear_extrude(height=1) cube(1);
