linear_extrude(1) rotate_extrude(angle=1) square(1);
