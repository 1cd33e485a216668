// An arch of a model railway's bridge, with a ledge at its crown. Without supports its crown would be printed in the air.
width = 36;
depth = 10;
height = 18;
opening = 12;   // radius of the arch
ledge = 3;      // how far the ledge stands out to both sides

translate([0, ledge, 0]) difference() {
  cube([width, depth, height]);
  translate([width / 2, -1, 0]) rotate([-90, 0, 0]) cylinder(h = depth + 2, r = opening, $fn = 48);
}
translate([0, 0, height - 2]) cube([width, depth + 2 * ledge, 2]);
