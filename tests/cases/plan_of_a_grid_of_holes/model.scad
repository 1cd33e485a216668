difference(){cube([9,9,0.4]); for(x=[1:2.7:7],y=[1:2.7:7]) translate([x,y,-1]) cube([1.6,1.6,3]);}
