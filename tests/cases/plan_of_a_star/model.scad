linear_extrude(height=0.4) polygon([for(i=[0:4]) 6*[cos(144*i),sin(144*i)]]);
