rotate([45,0,0]) cube([6,3,3]);
