cylinder(h=1.28,r1=1.5,r2=0.7,$fn=5);
