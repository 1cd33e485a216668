module d(k) difference() { if (k == 0) cube(10); else d(k - 1); translate([k, 0, 0]) cube(1); }
hull() { d(198); cube(1); }