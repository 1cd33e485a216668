difference(){cylinder(h=0.2,r=8,$fn=110); translate([0,0,-1]) cylinder(h=4,r=5,$fn=101);}
