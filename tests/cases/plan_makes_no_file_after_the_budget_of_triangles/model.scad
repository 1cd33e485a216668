sphere(1,$fn=2000);
