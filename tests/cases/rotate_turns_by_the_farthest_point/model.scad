rotate_extrude($fa=1,$fs=3) translate([2,0]) square([3,1]);
