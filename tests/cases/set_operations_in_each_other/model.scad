union() {
  difference() { cube(20); intersection() { sphere(9); cube(8); } }
  translate([30, 0, 0]) cube(1);
}