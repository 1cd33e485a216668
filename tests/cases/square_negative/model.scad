linear_extrude(1) square([1,-1]);
