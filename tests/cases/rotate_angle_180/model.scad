rotate_extrude(angle=180) square(1);
