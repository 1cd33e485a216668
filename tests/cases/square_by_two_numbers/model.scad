linear_extrude(1) square([2,5]);
