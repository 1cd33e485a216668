linear_extrude(1) for(i=[1:4097]) square(0);
