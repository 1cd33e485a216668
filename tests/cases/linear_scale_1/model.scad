linear_extrude(1,scale=1) square(1);
