for (y=[0,4,8]) translate([0,y,3]) cube([8,1.5,1]);
