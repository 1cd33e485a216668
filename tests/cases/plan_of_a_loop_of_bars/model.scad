for(i=[0:3],z=[0,0.4]) if(z==0) translate([i*2,0,0]) cube([1,7,0.4]); else translate([0,i*2,z]) cube([7,1,0.4]);
