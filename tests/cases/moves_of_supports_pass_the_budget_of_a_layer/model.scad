cube([1,1,1]);
for (x=[0:399]) translate([x*2,0,1]) cube([1,300,1]);
