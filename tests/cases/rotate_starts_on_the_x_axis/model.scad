rotate_extrude($fn=5) translate([3,0]) square(2);
