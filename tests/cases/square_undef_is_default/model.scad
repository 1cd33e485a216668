linear_extrude(1) square(undef);
