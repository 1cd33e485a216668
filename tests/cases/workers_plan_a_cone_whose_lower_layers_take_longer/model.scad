cylinder(h=6,r1=5,r2=0.2,$fn=9);
