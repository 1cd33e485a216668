cube([2,3,2]);
translate([2.749,0,0]) cube([2,3,2]);
translate([0,0,2]) cube([4.749,3,1]);
