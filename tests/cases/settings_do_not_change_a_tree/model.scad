difference() { cube(2); sphere(1,$fn=5); }
