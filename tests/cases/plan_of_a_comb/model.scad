cube([9,1.5,0.4]); for(i=[0:4]) translate([i*2,0,0]) cube([1,6,0.4]);
