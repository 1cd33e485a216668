rotate_extrude($fn=8) difference(){ translate([2,0]) square([4,4]); translate([3,1]) square([2,2]); }
