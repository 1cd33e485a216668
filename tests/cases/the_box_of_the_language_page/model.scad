// A box without a lid, and four feet under it.
inner = [60, 40, 25];                   // a vector: x, y and z in millimetres
wall = 1.6;
outer = inner + [2 * wall, 2 * wall, wall];

function inset(i) = i == 0 ? 5 : outer.x - 5;

module foot(h, r = 2) cylinder(h = h, r1 = r / 2, r2 = r, $fn = 16);

translate([0, 0, 3]) difference() {
  cube(outer);
  translate([wall, wall, wall]) cube(inner + [0, 0, 1]);
}
for (i = [0 : 1], y = [5, outer.y - 5]) translate([inset(i), y, 0]) foot(3.2);
assert(wall >= 0.8, "too thin to print");
echo("outside", size = outer);
