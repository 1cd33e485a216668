linear_extrude(1) square([3,5.000001],center=true);
