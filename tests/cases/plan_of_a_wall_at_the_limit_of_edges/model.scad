// A grid of 77 by 77 bars, and beside it 27 squares and a triangle.
cube([1,1,0.2]);
translate([5,0,0.2]) {
  for(i=[0:76]) translate([-1,i*0.6,0]) cube([48,0.3,0.2]);
  for(i=[0:76]) translate([i*0.6,-1,0]) cube([0.3,48,0.2]);
  for(i=[1:27]) translate([60,i*2,0]) cube([1,1,0.2]);
  translate([70,0,0]) linear_extrude(0.2) polygon([[0,0],[1,0],[0,1]]);
}
