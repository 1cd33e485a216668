linear_extrude(3,true) square(1);
