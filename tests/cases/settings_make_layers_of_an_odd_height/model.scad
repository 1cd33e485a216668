cylinder(h=2,r1=2,r2=0.5,$fn=9);
