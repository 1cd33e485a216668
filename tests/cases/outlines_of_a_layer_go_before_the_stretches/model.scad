cube([2,2,3]);
for (i=[0:20]) translate([i*3,0,3]) cylinder(h=1,r=1,$fn=1000);
