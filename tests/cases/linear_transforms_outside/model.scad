translate([1,2,3]) rotate([90,0,0]) linear_extrude(2) square([3,4]);
