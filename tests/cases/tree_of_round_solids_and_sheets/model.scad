sphere(2.5, $fn = 5);
sphere(0, $fn = 3);
cylinder(h = 2.001, r1 = 5, r2 = 0, $fn = 6, center = true);
cube([0, 1, 1], center = true);
cube([1, 0, 1], center = true);
cube([1, 1, 0], center = true);
linear_extrude(3.001, center = true) polygon([[0, 0], [2, 0], [0, 1]]);
rotate_extrude($fn = 3) polygon([[1, 0], [2, 0], [1, 1]]);
