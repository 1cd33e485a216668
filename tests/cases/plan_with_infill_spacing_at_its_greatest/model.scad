translate([-1,-1,0]) cube([102,102,0.4]);
