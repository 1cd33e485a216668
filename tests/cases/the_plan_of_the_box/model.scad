// A box with a lid that stands beside it.
inner = [30, 20, 12];   // the room inside
wall = 1.6;
gap = 0.2;              // between lid and box
round = 3;

// A rectangle with round corners.
module plate(x, y, r) {
  translate([r, 0]) square([x - 2 * r, y]);
  translate([0, r]) square([x, y - 2 * r]);
  for (cx = [r, x - r], cy = [r, y - r]) translate([cx, cy]) circle(r, $fn = 32);
}

outer = [inner.x + 2 * wall, inner.y + 2 * wall, inner.z + wall];

module box() difference() {
  linear_extrude(height = outer.z) plate(outer.x, outer.y, round + wall);
  translate([wall, wall, wall]) linear_extrude(height = inner.z + 1) plate(inner.x, inner.y, round);
}

module lid() {
  linear_extrude(height = wall) plate(outer.x, outer.y, round + wall);
  translate([wall + gap, wall + gap, wall]) linear_extrude(height = 2)
    difference() {
      plate(inner.x - 2 * gap, inner.y - 2 * gap, round);
      translate([wall, wall]) plate(inner.x - 2 * (gap + wall), inner.y - 2 * (gap + wall), round - wall / 2);
    }
}

box();
translate([0, outer.y + 6, 0]) lid();
