linear_extrude(1) translate([999,0]) square(2);
