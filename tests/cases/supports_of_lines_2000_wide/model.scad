translate([0,0,4]) cube([12,8,2]);
cube([3,3,4]);
