translate([0,0,-2]) cube([3,2,3.5]);
