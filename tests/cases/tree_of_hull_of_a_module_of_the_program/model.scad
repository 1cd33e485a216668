module post(h) translate([h, 0, 0]) cylinder(h=h, r=1, $fn=4);
hull() { post(2); post(6); }