difference(){#cube([5,5,0.4]); %translate([1,1,-1]) cube(2); *cube(9); translate([3,3,-1]) cube(3);}
