cylinder(h=4,r1=0,r2=3,$fn=6);
