intersection(){cylinder(h=2,r=3,$fn=7); translate([0,0,1]) rotate([90,0,0]) cylinder(h=8,r=2,$fn=5,center=true);}
