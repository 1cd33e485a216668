translate([4,6,2]) rotate([30,0,0]) sphere(r=5,$fn=5);
translate([-1,-1,6]) rotate([0,0,45]) cylinder(h=8,r=4,$fn=5);
translate([1,1,6]) rotate([0,0,45]) sphere(r=2,$fn=6);
