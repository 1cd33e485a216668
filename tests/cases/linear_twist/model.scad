linear_extrude(1,twist=1) square(1);
