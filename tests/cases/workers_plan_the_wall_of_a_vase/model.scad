difference(){cylinder(h=3,r1=2,r2=3,$fn=6); translate([0,0,-0.01]) cylinder(h=4,r1=1,r2=2.2,$fn=6);}
