linear_extrude(1) translate([0,0,5]) square(1);
