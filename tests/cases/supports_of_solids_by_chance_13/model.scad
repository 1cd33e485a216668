translate([7,8,8]) rotate([0,0,0]) cube([3,6,6]);
translate([-5,1,6]) rotate([30,0,15]) cube([8,2,6]);
translate([-3,-5,4]) rotate([30,0,15]) cube([5,9,2]);
translate([7,-1,0]) rotate([0,0,45]) cylinder(h=8,r=9,$fn=8);
translate([7,-4,0]) rotate([0,0,0]) cylinder(h=8,r=2,$fn=9);
