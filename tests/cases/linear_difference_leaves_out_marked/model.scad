linear_extrude(1) difference(){ % square(9); square(4); translate([1,1]) square(1); }
