
  linear_extrude(height = 2) square(1);