translate([5,-2,8]) rotate([0,0,45]) sphere(r=9,$fn=5);
translate([6,-5,0]) rotate([30,0,0]) cylinder(h=3,r=9,$fn=3);
