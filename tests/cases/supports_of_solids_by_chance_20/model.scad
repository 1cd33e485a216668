translate([5,-2,8]) rotate([30,0,0]) cube([6,7,9]);
translate([2,-4,1]) rotate([0,0,0]) sphere(r=1,$fn=8);
translate([1,5,3]) rotate([0,0,45]) cube([8,3,2]);
