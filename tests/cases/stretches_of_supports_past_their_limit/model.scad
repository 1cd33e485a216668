translate([0,0,500]) cube([0.2,500,0.05]);
translate([5,0,0.05]) cube([0.2,0.1,0.05]);
