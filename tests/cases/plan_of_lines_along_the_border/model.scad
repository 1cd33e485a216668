translate([-1,-1,0]) cube([4,4,0.4]);
