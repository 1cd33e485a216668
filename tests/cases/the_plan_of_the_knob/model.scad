// A knob for a shaft with a flat side.
radius = 12;
height = 14;
shaft = 6;
$fn = 48;

difference() {
  // The profile: the axis on the left, a rounded top edge on the right.
  rotate_extrude() difference() {
    union() {
      square([radius - 2, height]);
      square([radius, height - 2]);
      translate([radius - 2, height - 2]) circle(2, $fn = 24);
    }
    // A groove round the foot.
    translate([radius, 2]) circle(1, $fn = 16);
  }
  // The shaft, less its flat side.
  translate([0, 0, -1]) linear_extrude(height = 10) intersection() {
    circle(d = shaft + 0.2);
    translate([-shaft, -shaft]) square([2 * shaft, 1.7 * shaft - 0.7]);
  }
  // Grips.
  for (i = [0 : 11]) rotate(i * 30) translate([radius + 1.5, 0, 3.5])
    cylinder(h = height, r = 2.5, $fn = 20);
}
