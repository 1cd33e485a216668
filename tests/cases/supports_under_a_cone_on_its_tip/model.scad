translate([6,6,0]) cylinder(h=6,r1=0,r2=6,$fn=12);
