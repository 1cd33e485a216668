// An angle bracket: two legs with holes for screws, and a rib between them.
leg = 24;       // length of each leg
width = 16;
thick = 3;
hole = 3.2;     // diameter of the screws

module profile() {
  union() {
    square([leg, thick]);
    square([thick, leg]);
    polygon([[thick, thick], [leg / 2, thick], [thick, leg / 2]]);
  }
}

module screw(depth) translate([0, 0, -1]) cylinder(h = depth + 2, d = hole, $fn = 24);

difference() {
  // The profile lies in the xz plane, and the bracket reaches along y.
  translate([0, width, 0]) rotate([90, 0, 0]) linear_extrude(height = width) profile();
  for (y = [4, width - 4]) {
    translate([leg - 6, y, 0]) screw(thick);
    translate([0, y, leg - 6]) rotate([0, 90, 0]) screw(thick);
  }
  // A slot leaves the rib in the middle alone.
  for (y = [-1, width / 2 + 1.5])
    translate([thick, y, thick]) cube([leg, width / 2 - 0.5, leg]);
}
