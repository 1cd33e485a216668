cube([10,10,1]);
translate([4,4,8]) cube([10,10,1]);
translate([2,2,4]) cube([4,4,1]);
