rotate_extrude($fn=25000) translate([1,0]) square(1);
