module box(b) translate([b[0], b[1], 0]) cube([b[2] - b[0], b[3] - b[1], 0.2]);
translate([0, 0, 0]) union() { box([0, 0, 4, 4]); box([2, 2, 6, 6]); }
translate([10, 0, 0]) union() { box([0, 0, 2, 2]); box([2, 0, 4, 2]); }
translate([20, 0, 0]) difference() { box([0, 0, 2, 2]); box([2, 0, 4, 2]); }
translate([30, 0, 0]) difference() { box([2, 0, 4, 2]); box([0, 0, 2, 2]); }
translate([40, 0, 0]) union() { box([0, 0, 2, 2]); box([0, 2, 2, 4]); }
translate([50, 0, 0]) difference() { box([0, 0, 2, 2]); box([0, 2, 2, 4]); }
translate([60, 0, 0]) intersection() { box([0, 0, 2, 2]); box([0, 2, 2, 4]); }
translate([70, 0, 0]) difference() { box([0, 0, 4, 4]); box([0, 1, 2, 3]); }
translate([80, 0, 0]) difference() { box([0, 0, 2, 2]); box([0, 0, 2, 2]); }
