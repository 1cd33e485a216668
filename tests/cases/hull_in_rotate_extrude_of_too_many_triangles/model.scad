rotate_extrude($fn=5000)
  hull() for(i=[0:4]) square(1);