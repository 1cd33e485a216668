difference(){cube([9,9,0.4]); difference(){translate([2,2,-1]) cube([5,5,2]); translate([3.5,3.5,-2]) cube([2,2,4]);}}
