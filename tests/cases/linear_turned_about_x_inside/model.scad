linear_extrude(1) rotate([60,0,0]) square([2,4]);
