linear_extrude(1) difference(){ square(9); translate([3,3]) square(3); }
