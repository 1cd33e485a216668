cylinder(h=0.6,d=9,$fn=5);
