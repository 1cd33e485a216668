linear_extrude(1,v=[0,0,1]) square(1);
