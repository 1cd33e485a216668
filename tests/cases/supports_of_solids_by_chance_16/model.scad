translate([-4,1,3]) rotate([0,0,15]) cube([7,7,1]);
translate([4,-5,6]) rotate([0,0,15]) cylinder(h=6,r=4,$fn=7);
