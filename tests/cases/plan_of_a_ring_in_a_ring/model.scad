for(r=[5,2.5]) difference(){cylinder(h=0.4,r=r,$fn=12); translate([0,0,-1]) cylinder(h=3,r=r-1.5,$fn=12);}
