for(i=[0:2],j=[0:1]) translate([i*3,j*3,0]) cylinder(h=0.6,r=0.9,$fn=6); translate([-1,-1,0.6]) cube([8,5,0.4]);
