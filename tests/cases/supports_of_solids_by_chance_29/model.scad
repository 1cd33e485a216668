translate([-3,5,6]) rotate([0,0,45]) cube([7,2,8]);
translate([-4,5,8]) rotate([0,0,15]) cube([5,9,5]);
translate([0,7,2]) rotate([0,0,45]) sphere(r=6,$fn=7);
translate([8,4,6]) rotate([30,0,45]) sphere(r=1,$fn=7);
