%hull() { cube(1); translate([9, 0, 0]) cube(1); }
cube(1);