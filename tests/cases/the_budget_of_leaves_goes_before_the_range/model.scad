for (i = [1:4096]) cube(1);
  cube(2000);