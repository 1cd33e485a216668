cube([10,10,1]);
translate([2,2,5]) cube([12,6,1]);
