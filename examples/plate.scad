// A plate with a rim and a row of screw holes.
holes = 3; step = 20; length = holes * step; $fn = 24;
module row() for (i = [0 : holes - 1]) translate([step * (i + 0.5), 12, -1]) children();
difference() {
  union() { cube([length, 20, 4]); cube([length, 3, 12]); }
  row() cylinder(h = 6, d1 = 3, d2 = 7);
}
echo(length = length);
