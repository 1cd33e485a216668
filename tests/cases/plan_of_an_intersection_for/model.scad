intersection_for(a=[0,60,120]) rotate(a) translate([-4,-2.5,0]) cube([8,5,0.4]);
