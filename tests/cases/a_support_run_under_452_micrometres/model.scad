cube([1,3,1]);
translate([4,0,2]) cube([0.452,3,1]);
translate([0,0,1]) cube([1,3,2]);
