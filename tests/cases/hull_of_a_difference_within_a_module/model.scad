module cup() difference() { cube(4); translate([1, 1, 1]) cube(3); }
translate([1, 1, 1])
  hull() { cup(); cube(1); }