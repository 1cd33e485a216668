translate([-2,-2,-1]) cube([5,4,1.5]);
