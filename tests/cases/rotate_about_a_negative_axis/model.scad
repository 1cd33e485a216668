rotate(90, [0, 2, 0]) translate([-9, 0, 0]) cube([9, 1, 1]);
rotate(90, [0, -2, 0]) cube([7, 1, 1]);