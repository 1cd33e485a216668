linear_extrude(height=0.6) difference(){square([8,7]); translate([4,3.5]) circle(r=1.5,$fn=8);}
