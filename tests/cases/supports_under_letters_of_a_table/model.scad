for (x=[0,6,12]) translate([x,0,4]) cube([4,10,1]);
translate([0,4,0]) cube([2,2,4]);
