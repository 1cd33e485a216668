translate([6,-3,8]) rotate([30,0,45]) cylinder(h=6,r=2,$fn=8);
translate([5,2,5]) rotate([30,0,15]) cube([1,1,2]);
translate([4,6,4]) rotate([0,0,0]) cube([8,9,4]);
translate([-2,0,3]) rotate([30,0,45]) cylinder(h=1,r=7,$fn=5);
