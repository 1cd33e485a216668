group()
  hull() for(i=[0:4095]) cube(1);