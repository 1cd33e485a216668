scale([2,1.5,0.2]) difference(){cube(3); translate([1,1,-1]) cube([1,1,5]);}
