rotate(30) cube([6,4,0.4]);
