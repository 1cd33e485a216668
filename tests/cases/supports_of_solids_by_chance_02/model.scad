translate([5,2,3]) rotate([0,0,45]) cylinder(h=7,r=7,$fn=7);
translate([8,5,3]) rotate([0,0,45]) cylinder(h=3,r=9,$fn=4);
