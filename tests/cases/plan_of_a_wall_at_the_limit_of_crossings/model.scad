// A plate with a row of 281 holes, one of 8, 7 holes apart and a triangle.
module holes(n, pitch) for (i = [0 : n - 1]) translate([i * pitch, 0, -1]) cube([0.002, 0.002, 2]);
cube([1, 1, 0.2]);
translate([5, 0, 0.2]) difference() {
  cube([60, 20, 0.2]);
  translate([10, 5, 0]) holes(281, 0.004);
  translate([20, 5, 0]) holes(8, 0.004);
  translate([30, 5, 0]) holes(7, 3);
  translate([10, 12, -1]) linear_extrude(2) polygon([[0, 0], [0.1, 0], [0, 0.1]]);
}
