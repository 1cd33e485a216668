for(i=[0:2]) translate([i*3.2,0,0]) cube([3,4,0.4]);
