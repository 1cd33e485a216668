cube([0.3,201,0.2]);translate([5,0,0]){for(i=[0:84]) translate([-1,i*0.6,0]) cube([53.0,0.3,0.2]); for(i=[0:84]) translate([i*0.6,-1,0]) cube([0.3,53.0,0.2]);}
