cylinder(h=2.58,r1=1.5,r2=0.7,$fn=5);
