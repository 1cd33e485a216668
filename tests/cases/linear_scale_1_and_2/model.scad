linear_extrude(1,scale=[1,2]) square(1);
