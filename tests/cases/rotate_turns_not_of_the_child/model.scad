rotate_extrude($fa=40) translate([2,0]) square(1,$fn=50);
