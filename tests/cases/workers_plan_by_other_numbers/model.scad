cylinder(h=2.6,r1=1.5,r2=0.7,$fn=5);
