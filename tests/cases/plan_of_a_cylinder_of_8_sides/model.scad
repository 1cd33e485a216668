translate([5,5,0]) cylinder(h=0.4,r=4,$fn=8);
