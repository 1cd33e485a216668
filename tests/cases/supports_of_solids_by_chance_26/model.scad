translate([-6,-3,6]) rotate([0,0,15]) cube([4,9,1]);
translate([3,4,0]) rotate([30,0,0]) cube([3,9,6]);
translate([2,3,2]) rotate([0,0,0]) cylinder(h=1,r=3,$fn=3);
