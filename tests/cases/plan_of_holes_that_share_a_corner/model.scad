difference(){cube([8,8,0.4]); translate([1,1,-1]) cube([3,3,2]); translate([4,4,-1]) cube([3,3,2]);}
