cylinder(h=1.5,r1=4,r2=2.5,$fn=10,center=true);
