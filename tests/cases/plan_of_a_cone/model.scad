cylinder(h=4,r1=4,r2=0,$fn=9);
