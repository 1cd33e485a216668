translate([-30,-30,0]) cube([60,60,2]);
