linear_extrude(height=-1,twist=1) square(1);
