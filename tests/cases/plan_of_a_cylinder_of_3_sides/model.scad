cylinder(h=0.6,r=4,$fn=3);
