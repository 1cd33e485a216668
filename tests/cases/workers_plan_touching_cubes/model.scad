for(i=[0:2]) translate([i*2,i*2,0]) cube([2,2,1.4]);
