linear_extrude(1,false,5,6,7) square(1);
