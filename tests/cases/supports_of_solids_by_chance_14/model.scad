translate([6,6,3]) rotate([0,0,0]) sphere(r=2,$fn=5);
translate([6,-4,0]) rotate([0,0,15]) sphere(r=3,$fn=5);
translate([0,-3,6]) rotate([30,0,45]) cube([3,7,4]);
