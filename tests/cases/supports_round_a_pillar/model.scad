translate([6,6,0]) cylinder(h=6,r=2,$fn=16);
translate([0,0,6]) cube([12,12,1]);
