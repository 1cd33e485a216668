translate([3,3,2]) sphere(d=4,$fn=8);
