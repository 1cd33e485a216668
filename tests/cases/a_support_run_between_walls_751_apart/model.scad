cube([2,3,2]);
translate([2.751,0,0]) cube([2,3,2]);
translate([0,0,2]) cube([4.751,3,1]);
