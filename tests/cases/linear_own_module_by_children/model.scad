module plate(h) linear_extrude(h) children(); plate(0.4) { square(1); translate([2,0]) circle(1,$fn=6); }
