module ring() rotate_extrude($fn=6) translate([4,0]) children(); ring() circle(1,$fn=4);
