cube([2,4,1]);
translate([0,0,1]) cube([8,4,0.5]);
