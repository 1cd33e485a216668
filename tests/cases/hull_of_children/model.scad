module along() hull() { children(); translate([4, 0, 0]) children(0); }
along() { cube(1); translate([0, 3, 0]) cube(1); }