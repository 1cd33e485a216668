rotate_extrude($fn=16) translate([6,3]) circle(r=2,$fn=8);
