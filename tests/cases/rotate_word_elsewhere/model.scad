
  rotate_extrude()
 translate([-0.5,0]) square(1);
