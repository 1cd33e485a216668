linear_extrude(height=0) square(1);
