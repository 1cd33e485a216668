// A rail with rings for tools, screwed to a wall.
rings = 2; step = 30; $fn = 24;
length = rings * step;
module along(n, every) for (i = [0 : n - 1]) translate([every * (i + 0.5), 0, 0]) children();
module ring() rotate([0, 90, 0]) difference() { cylinder(h = 8, r = 12); translate([0, 0, -1]) cylinder(h = 10, r = 7); }
difference() {
  union() { cube([length, 5, 25]); along(rings, step) translate([-4, 15, 12]) ring(); }
  along(2, length / 2) translate([0, -1, 20]) rotate([-90, 0, 0]) cylinder(h = 7, d = 4);
}
echo(length = length);
