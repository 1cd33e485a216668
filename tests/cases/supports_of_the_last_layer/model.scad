translate([0,0,9]) cube([8,8,1]);
cube([1,1,10]);
