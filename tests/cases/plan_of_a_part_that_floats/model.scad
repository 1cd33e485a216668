translate([0,0,0.6]) cube([4,3,0.4]);
