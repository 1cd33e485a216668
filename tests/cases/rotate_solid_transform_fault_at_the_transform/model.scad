rotate_extrude() translate([0,0,1]) multmatrix([[1000000000,0,0,0],[0,1,0,0],[0,0,1,0]]) scale(1000000000) square(1);
