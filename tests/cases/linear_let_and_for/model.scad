linear_extrude(1) for(i=[0:3]) let(r=i+1) translate([i*5,0]) circle(r,$fn=4);
