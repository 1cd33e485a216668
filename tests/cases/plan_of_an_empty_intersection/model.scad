intersection(){cube(1); translate([2,0,0]) cube(1);}
