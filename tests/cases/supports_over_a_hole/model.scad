difference() { cube([12,12,3]); translate([3,3,-1]) cube([6,6,5]); }
translate([2,2,5]) cube([8,8,1]);
