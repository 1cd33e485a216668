rotate(30) cube([9,8,0.4]);
