cube([1,1,3]); translate([0,0,0.8]) cylinder(h=0.2,r=50,$fn=10001); translate([0,0,1.8]) cylinder(h=0.2,r=50,$fn=10001);
