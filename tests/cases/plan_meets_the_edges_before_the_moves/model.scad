cube([0.3,201,0.2]); translate([60,0,0]) cylinder(h=0.2,r=50,$fn=10001);
