for (i=[0:5]) translate([i*2,0,i]) cube([3,6,1]);
