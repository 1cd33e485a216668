for (x=[0,6,12]) translate([x,0,3]) cube([4,6,1]);
