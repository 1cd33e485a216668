difference(){union(){cylinder(h=0.4,r=4,$fn=16); for(i=[0:7]) rotate(i*45) translate([3.5,-0.8,0]) cube([2,1.6,0.4]);} translate([0,0,-1]) cylinder(h=3,r=1.5,$fn=8);}
