linear_extrude(height=6) polygon([[0,0],[6,0],[2,10]]);
translate([0,0,6]) cube([10,10,1]);
