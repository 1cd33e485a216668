for(x=[0,6,12]) translate([x,x/3,0]) cube([4,4,0.2+x/20]);
