for (i = [1:4097])
  cube(1);