translate([6,6,5]) sphere(r=5,$fn=16);
