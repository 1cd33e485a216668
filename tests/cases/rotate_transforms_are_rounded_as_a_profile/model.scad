rotate_extrude($fn=4) translate([5,1]) rotate(30) rotate(7) square([1,2]);
