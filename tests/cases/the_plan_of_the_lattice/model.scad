// A lattice of bars in three directions, in a frame.
cells = 3;
pitch = 6;
bar = 1.2;
size = cells * pitch + bar;

// Bars along z, one at each crossing.
module bars()
  for (i = [0 : cells], j = [0 : cells]) translate([i * pitch, j * pitch, 0]) cube([bar, bar, size]);

union() {
  bars();
  translate([0, size, 0]) rotate([90, 0, 0]) bars();
  translate([0, 0, size]) rotate([0, 90, 0]) bars();
}

// Round posts in the middle of each cell of the ground.
for (i = [0 : cells - 1], j = [0 : cells - 1])
  translate([(i + 0.5) * pitch + bar / 2, (j + 0.5) * pitch + bar / 2, 0])
    linear_extrude(height = 2) difference() {
      circle(1.6, $fn = 16);
      circle(0.8, $fn = 16);
    }
