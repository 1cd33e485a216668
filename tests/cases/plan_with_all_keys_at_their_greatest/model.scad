translate([-25,-23,0]) cube([50,46,2]);
