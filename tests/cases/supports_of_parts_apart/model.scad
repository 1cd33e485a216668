for (x=[0,15,30]) translate([x,0,0]) { cube([2,2,4]); translate([0,0,4]) cube([8,6,1]); }
