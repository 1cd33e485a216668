difference(){cube([20,14,0.4]); translate([7,4.5,-1]) cube([5,5,3]);}
