linear_extrude(1,twist=false) square(1);
