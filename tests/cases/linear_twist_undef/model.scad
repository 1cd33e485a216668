linear_extrude(1,twist=undef) square(1);
