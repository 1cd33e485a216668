module frame(){ difference(){ children(0); translate([1,1]) children(1); } } linear_extrude(1) frame(){ square(5); square(2); }
