linear_extrude(1) intersection(){ circle(5,$fn=12); translate([2,0]) square([9,9],center=true); }
