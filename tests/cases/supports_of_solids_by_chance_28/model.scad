translate([6,6,1]) rotate([0,0,15]) sphere(r=4,$fn=8);
translate([-3,-2,1]) rotate([0,0,45]) cube([7,8,8]);
