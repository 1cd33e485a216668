for (i=[0:5]) rotate([0,0,i*15]) translate([0,0,i]) cube([8,3,1]);
