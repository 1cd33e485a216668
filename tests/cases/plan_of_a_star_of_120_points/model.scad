linear_extrude(0.2) polygon([for(i=[0:119]) (i%2==0 ? 9 : 8)*[cos(3*i),sin(3*i)]]);
