linear_extrude(1) mirror([1,0]) square([2,4]);
