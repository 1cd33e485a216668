linear_extrude(1,v=undef) square(1);
