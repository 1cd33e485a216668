// A case for a small board, rounded all round, with a slot for a plug.
inside = [44, 28, 10];
wall = 2;
radius = 4;
$fn = 24;

// The hull of eight balls in the corners: a block with rounded edges.
module block(size, r) {
  hull() for (x = [r, size.x - r], y = [r, size.y - r], z = [r, size.z - r])
    translate([x, y, z]) sphere(r);
}

// The hull of two rods: a slot, as long as `length`, through a side.
module slot(length, d) {
  rotate([90, 0, 0]) hull() for (x = [0, length - d])
    translate([x, 0, 0]) cylinder(h = 4 * wall, d = d, center = true);
}

// The hull of four flat circles: a plate with rounded corners.
module plate(size, r, height) {
  linear_extrude(height = height) hull() for (x = [r, size.x - r], y = [r, size.y - r])
    translate([x, y]) circle(r);
}

difference() {
  block([inside.x + 2 * wall, inside.y + 2 * wall, 2 * (inside.z + wall)], radius);
  // The lower half alone stays.
  translate([-1, -1, inside.z + wall]) cube([60, 40, 30]);
  translate([wall, wall, wall]) plate(inside, radius - wall, inside.z + 1);
  translate([wall + inside.x / 2 - 4.5, 0, wall + 4]) slot(12, 3);
}
// Posts for the board's screws.
for (x = [6, inside.x + 2 * wall - 6], y = [6, inside.y + 2 * wall - 6])
  translate([x, y, wall - 0.4]) difference() {
    cylinder(h = 4, r = 2.5);
    cylinder(h = 9, d = 2);
  }
