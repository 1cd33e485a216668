for(i=[0:0:3]) cube(1);
