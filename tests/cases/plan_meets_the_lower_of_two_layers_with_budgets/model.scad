cube([0.3,201,0.2]); cube([1,1,0.6]); translate([0,0,0.4]) cylinder(h=0.2,r=50,$fn=10001);
