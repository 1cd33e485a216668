for(i=[0:5000]) cube(1);
