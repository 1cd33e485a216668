translate([2,-2,6]) rotate([0,0,15]) cylinder(h=5,r=8,$fn=9);
translate([-4,3,1]) rotate([0,0,45]) cube([2,3,3]);
translate([1,3,3]) rotate([0,0,15]) cylinder(h=6,r=5,$fn=6);
