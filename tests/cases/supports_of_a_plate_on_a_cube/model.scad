cube([2,2,2]);
translate([0,0,2]) cube([6,2,0.2]);
