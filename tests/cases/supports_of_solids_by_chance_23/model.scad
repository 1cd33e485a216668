translate([3,4,7]) rotate([0,0,15]) sphere(r=4,$fn=5);
translate([-1,2,5]) rotate([0,0,0]) cylinder(h=9,r=9,$fn=6);
translate([4,7,1]) rotate([0,0,45]) sphere(r=5,$fn=7);
translate([-3,6,8]) rotate([30,0,45]) cube([3,7,9]);
