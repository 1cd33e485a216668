rotate_extrude($fn=4) translate([2,0]) circle(1,$fn=3);
