cube([1,1,0.4]);translate([0,0,0.4]){for(i=[0:707]) translate([-1,i*0.6,0]) cube([426.8,0.3,0.2]); for(i=[0:707]) translate([i*0.6,-1,0]) cube([0.3,426.8,0.2]);}
