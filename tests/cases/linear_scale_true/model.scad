linear_extrude(1,scale=true) square(1);
