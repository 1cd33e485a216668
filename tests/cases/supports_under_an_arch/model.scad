difference() { cube([20,6,10]); translate([10,-1,0]) rotate([-90,0,0]) cylinder(h=8,r=8,$fn=32); }
