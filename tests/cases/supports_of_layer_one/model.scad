cube([4,4,1]);
translate([0,0,1]) cube([9,4,1]);
