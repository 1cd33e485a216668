linear_extrude(1,scale=2) square(1);
