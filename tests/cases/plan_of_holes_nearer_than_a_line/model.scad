difference(){cube([9,6,0.4]); for(x=[2,4.2]) translate([x,2,-1]) cube([2,2,3]);}
