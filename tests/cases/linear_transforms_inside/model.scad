linear_extrude(2) translate([1,2,9]) rotate(30) scale([2,3,7]) square(1);
