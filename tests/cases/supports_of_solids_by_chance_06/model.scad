difference() { union() { translate([0,-4,5]) rotate([30,0,45]) cube([1,4,3]); translate([7,5,2]) rotate([0,0,0]) cylinder(h=8,r=2,$fn=5); } translate([-5,2,2]) rotate([0,0,45]) cube([4,3,3]); }
