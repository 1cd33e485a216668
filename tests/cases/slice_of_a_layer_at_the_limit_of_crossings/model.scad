// 2,000 sides that cross at one point, and 10 bars across 25.
module prisms(fours) polyhedron(
  [for (four = fours, z = [0, 0.2]) each [for (p = four) [p.x, p.y, z]]],
  [for (k = [0 : 8 : 8 * len(fours) - 1]) each
    [[k, k + 1, k + 2, k + 3], [k + 7, k + 6, k + 5, k + 4], [k + 1, k, k + 4, k + 5],
     [k + 2, k + 1, k + 5, k + 6], [k + 3, k + 2, k + 6, k + 7], [k, k + 3, k + 7, k + 4]]]);
module bars(n, end) prisms([for (i = [0 : n - 1]) let (y = 0.6 * i)
  [[-1, y], [end, y], [end, y + 0.3], [-1, y + 0.3]]]);
prisms([for (i = [0 : 999]) let (a = 0.2 * i - 100, b = a + 0.1)
  [[a, 20], [b, 20], [-3 * b, -60], [-3 * a, -60]]]);
translate([0, 100, 0]) { bars(10, 15.6); mirror([1, -1, 0]) bars(25, 6.6); }
translate([100, 100, 0]) cube([1, 2, 0.2]);
