cylinder(h=6,r1=0.2,r2=5,$fn=9);
