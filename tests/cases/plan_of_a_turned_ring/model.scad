rotate_extrude($fn=8) translate([3,0]) square([2,0.8]);
