cube([1,1,1.5]); translate([0,0,1.4]) cylinder(h=0.02,r=50,$fn=10001);
