translate([-9.5,-7.25,0]) cube([6,5,0.4]);
