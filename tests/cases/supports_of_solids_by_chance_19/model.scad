translate([8,-3,3]) rotate([30,0,0]) cylinder(h=4,r=4,$fn=7);
translate([-1,-2,5]) rotate([0,0,0]) cube([1,8,8]);
translate([3,4,3]) rotate([0,0,45]) sphere(r=6,$fn=4);
translate([3,3,0]) rotate([30,0,45]) cube([3,3,6]);
