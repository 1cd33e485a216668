translate([3,-3,4]) rotate([0,0,15]) cube([6,5,3]);
translate([4,2,8]) rotate([0,0,15]) sphere(r=1,$fn=7);
translate([-6,-6,6]) rotate([0,0,0]) sphere(r=9,$fn=8);
