linear_extrude(1) linear_extrude(twist=5) square(1);
