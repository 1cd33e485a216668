linear_extrude(3) square(1);
