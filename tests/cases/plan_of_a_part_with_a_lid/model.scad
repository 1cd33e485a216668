cube([6,5,0.4]); translate([1,1,0.4]) cube([4,3,0.2]); translate([-1,-1,0.6]) cube([8,7,0.2]);
