linear_extrude(1) translate([1,2]) cylinder(1);
