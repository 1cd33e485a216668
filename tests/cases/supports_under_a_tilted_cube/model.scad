translate([8,8,0]) rotate([45,35,0]) cube(7,center=true);
