rotate_extrude($fn=3)
  hull() for(i=[0:4094]) square(1);