for(i=[1:4096]) cube(0); square(1);
