rotate_extrude($fn=4) translate([5,1,7]) rotate(45) square([1,2]);
