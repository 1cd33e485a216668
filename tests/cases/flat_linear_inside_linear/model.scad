linear_extrude(1) linear_extrude(1) square(1);
