rotate([30.5, 0, 0]) mirror([1, 2, 3]) translate([1, 2, 3]) scale([1, 2, 3]) rotate([0, -90, 30]) mirror([1, 1, 0]) cube([1, 2, 3]);
multmatrix([[1, 2, 3, 0], [2, 3, 0, 1], [3, 0, 1, 2], [0, 0, 0, 1]]) mirror([0, 0, 0]) cube(0.5);
rotate_extrude($fn = 5) rotate(30) translate([4, 2]) square(1);
