translate([996,-1000,0]) cube([4,3,0.4]);
