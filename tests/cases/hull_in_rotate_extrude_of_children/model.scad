module wide() hull() { children(); translate([0, 4]) children(1); }
rotate_extrude($fn=4) wide() { translate([3, 0]) square(1); translate([5, 0]) circle(1, $fn=6); }