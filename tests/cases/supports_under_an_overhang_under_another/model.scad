cube([3,10,9]);
translate([0,0,3]) cube([8,10,1]);
translate([0,0,7]) cube([14,10,1]);
