linear_extrude(1,scale=[1,1,1]) square(1);
