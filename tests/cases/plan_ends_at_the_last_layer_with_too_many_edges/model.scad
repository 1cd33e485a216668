cube([2,2,0.8]); translate([0,0,0.6]) cylinder(h=0.2,r=50,$fn=10001);
