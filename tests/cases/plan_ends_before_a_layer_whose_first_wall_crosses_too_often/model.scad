cube([2,2,0.4]); translate([0,0,0.2]) cylinder(h=0.2,r=0.9,$fn=1500);
