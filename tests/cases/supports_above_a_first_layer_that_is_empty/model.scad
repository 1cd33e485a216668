translate([0,0,2]) cube([6,6,1]);
translate([0,0,5]) cube([9,9,1]);
