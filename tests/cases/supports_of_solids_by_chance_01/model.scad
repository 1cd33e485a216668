translate([6,8,4]) rotate([0,0,45]) sphere(r=5,$fn=6);
translate([-3,-5,7]) rotate([0,0,45]) cube([4,6,3]);
