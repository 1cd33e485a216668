rotate_extrude() linear_extrude(v=1) square(1);
