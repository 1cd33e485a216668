rotate_extrude() rotate_extrude() square(1);
