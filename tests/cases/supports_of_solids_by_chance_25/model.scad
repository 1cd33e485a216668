translate([-4,6,4]) rotate([0,0,45]) cube([4,5,4]);
translate([0,-3,7]) rotate([0,0,15]) cube([5,9,4]);
translate([6,-4,6]) rotate([30,0,45]) sphere(r=4,$fn=8);
