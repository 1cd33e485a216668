linear_extrude(1,twist=0) square(1);
