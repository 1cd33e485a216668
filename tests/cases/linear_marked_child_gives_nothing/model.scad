linear_extrude(1) { % square(1); translate([3,0]) square(2); }
