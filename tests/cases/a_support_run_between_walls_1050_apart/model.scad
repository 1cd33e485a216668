cube([2,3,2]);
translate([3.05,0,0]) cube([2,3,2]);
translate([0,0,2]) cube([5.05,3,1]);
