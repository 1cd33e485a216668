translate([1,2,3]) rotate([90,0,0]) rotate_extrude($fn=4) translate([2,0]) square(1);
