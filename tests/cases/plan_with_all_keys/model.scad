difference(){cylinder(h=1,r=5,$fn=12); translate([0,0,-1]) cube([2,2,3],center=false);}
