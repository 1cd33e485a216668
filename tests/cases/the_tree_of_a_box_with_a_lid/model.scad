// A box with a lid beside it.
inner = [60, 40, 25];
wall = 1.6;
gap = 0.2;

outer = inner + 2 * wall * [1, 1, 0] + [0, 0, wall];

module rounded(size, r = 3) {
  for (x = [r, size.x - r], y = [r, size.y - r])
    translate([x, y, 0]) cylinder(h = size.z, r = r, $fn = 24);
  translate([r, 0, 0]) cube([size.x - 2 * r, size.y, size.z]);
  translate([0, r, 0]) cube([size.x, size.y - 2 * r, size.z]);
}

module hollow(size, bottom) {
  difference() {
    rounded(size);
    translate([wall, wall, bottom]) rounded(size - [2 * wall, 2 * wall, 0], 3 - wall);
  }
}

hollow(outer, wall);
translate([outer.x + 10, 0, 0]) {
  rounded([outer.x, outer.y, wall]);
  translate(wall * [1, 1, 0] + gap * [1, 1, 0])
    hollow([inner.x - 2 * gap, inner.y - 2 * gap, 5], 0);
}
echo("outer size", outer);
