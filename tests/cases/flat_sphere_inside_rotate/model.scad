rotate_extrude() sphere(1);
