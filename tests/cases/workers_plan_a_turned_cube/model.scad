rotate(30) cube([4,3,1.4]);
