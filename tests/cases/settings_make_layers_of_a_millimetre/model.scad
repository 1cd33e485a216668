translate([0,0,-1]) cube([3,2,7]);
