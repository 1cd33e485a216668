linear_extrude(0.2) polygon([for(i=[0:299]) (i%2==0 ? 90 : 85)*[cos(1.2*i),sin(1.2*i)]]);
