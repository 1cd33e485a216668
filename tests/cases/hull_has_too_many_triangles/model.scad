group()
  hull() for(i=[0:222]) sphere(2, $fn=30);