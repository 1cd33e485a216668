translate([4,5,4]) rotate([0,0,45]) cube([2,2,7]);
translate([-4,1,1]) rotate([0,0,0]) sphere(r=8,$fn=8);
translate([-2,5,5]) rotate([30,0,45]) cylinder(h=2,r=5,$fn=5);
translate([5,0,7]) rotate([0,0,15]) cube([4,3,2]);
translate([-1,-2,4]) rotate([0,0,15]) cylinder(h=9,r=3,$fn=9);
