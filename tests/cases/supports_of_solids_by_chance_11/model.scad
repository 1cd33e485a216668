translate([8,7,1]) rotate([0,0,0]) cylinder(h=3,r=4,$fn=7);
translate([3,-5,1]) rotate([0,0,0]) sphere(r=4,$fn=4);
translate([4,-5,2]) rotate([0,0,15]) sphere(r=8,$fn=4);
translate([-1,3,1]) rotate([0,0,45]) cylinder(h=2,r=2,$fn=8);
