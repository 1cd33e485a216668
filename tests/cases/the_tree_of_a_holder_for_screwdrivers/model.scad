// A holder for screwdrivers: a block with a row of holes, screwed to a wall.
holes = 5;          // how many
width = 9;          // of the widest hole
step = 18;          // from hole to hole
wall = 3;
depth = step + 2 * wall;
$fn = 36;

function diameter(i) = width - i * 0.8;

module block() cube([holes * step + 2 * wall, depth, 12]);

module row() {
  for (i = [0 : holes - 1])
    translate([wall + step * (i + 0.5), depth / 2, -1]) children(i % $children);
}

difference() {
  union() {
    block();
    cube([holes * step + 2 * wall, wall, 30]);
  }
  row() {
    cylinder(h = 14, d = width);
    cylinder(h = 14, d1 = diameter(2), d2 = width);
  }
  for (x = [10, holes * step - 4]) translate([x, -1, 22]) rotate([-90, 0, 0]) cylinder(h = wall + 2, d = 4);
}
echo(holes = holes, thinnest = diameter(holes - 1));
