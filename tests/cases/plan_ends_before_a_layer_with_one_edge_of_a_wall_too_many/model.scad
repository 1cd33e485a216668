// A grid of 82 by 83 bars, and beside it 24 squares, 3 triangles and a trapezoid.
cube([1,1,0.2]);
translate([5,0,0.2]) {
  for(i=[0:81]) translate([-1,i*0.6,0]) cube([51,0.3,0.2]);
  for(i=[0:82]) translate([i*0.6,-1,0]) cube([0.3,51,0.2]);
  for(i=[1:24]) translate([60,i*2,0]) cube([1,1,0.2]);
  for(i=[1:3]) translate([70,i*2,0]) linear_extrude(0.2) polygon([[0,0],[1,0],[0,1]]);
  translate([80,0,0]) linear_extrude(0.2) polygon([[0,0],[2,0],[1,1],[0,1]]);
}
