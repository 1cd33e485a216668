linear_extrude(1);
