translate([0,0,6]) cube([8,8,2]);
