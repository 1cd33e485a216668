sphere(r=2.5,$fn=10);
