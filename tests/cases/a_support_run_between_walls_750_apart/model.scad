cube([2,3,2]);
translate([2.75,0,0]) cube([2,3,2]);
translate([0,0,2]) cube([4.75,3,1]);
