linear_extrude() square(1);
