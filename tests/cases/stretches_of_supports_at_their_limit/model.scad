translate([0,0,500]) cube([0.2,500,0.05]);
