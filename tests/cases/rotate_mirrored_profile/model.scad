rotate_extrude($fn=5) mirror([1,0]) translate([1,0]) square(2);
