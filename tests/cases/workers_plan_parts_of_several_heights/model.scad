for(i=[0:4]) translate([i*3,0,0]) cube([2,2,0.5+i*0.7]);
