cylinder(h=0.2,r=50,$fn=10001);
