cube([4,10,8]);
translate([0,0,6]) cube([14,10,2]);
