translate([-4,-4,0]) cube([9,9,0.4]);
