translate([5,-3,4]) rotate([0,0,0]) cylinder(h=1,r=4,$fn=3);
translate([0,4,1]) rotate([0,0,15]) cube([1,6,3]);
translate([5,5,2]) rotate([0,0,15]) cube([6,1,5]);
translate([-3,5,5]) rotate([0,0,45]) cylinder(h=9,r=7,$fn=7);
