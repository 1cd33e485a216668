translate([0,0,1]) linear_extrude(height=1,center=true) square([5,4],center=true);
