rotate_extrude($fn=3)
  hull() for(i=[0:4095]) square(1);