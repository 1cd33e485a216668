for(i=[0:2]){translate([i*3,-1,0]) cube([1.2,9,0.4]); translate([-1,i*3,0]) cube([9,1.2,0.4]);}
