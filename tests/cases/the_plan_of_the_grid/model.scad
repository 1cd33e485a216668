// A tray of cells; what stands in each cell is given as a child.
columns = 4;
rows = 3;
pitch = 10;
wall = 0.8;
floor_height = 0.8;

// Sets the children into each cell, the cell's number in $cell.
module each_cell() {
  for (i = [0 : columns - 1], j = [0 : rows - 1])
    let ($cell = j * columns + i) translate([i * pitch, j * pitch, 0]) children();
}

// The first child is cut out of the second in each cell.
module tray() {
  difference() {
    cube([columns * pitch + wall, rows * pitch + wall, 6]);
    translate([wall, wall, floor_height]) each_cell() children(0);
  }
  translate([wall, wall, 0]) each_cell() children(1);
}

tray() {
  cube([pitch - wall, pitch - wall, 10]);
  // A post in every second cell.
  if ($cell % 2 == 0) translate([(pitch - wall) / 2, (pitch - wall) / 2, 0])
    linear_extrude(height = 4) circle(1.5 + $cell / 10, $fn = 12);
}
