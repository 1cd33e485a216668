linear_extrude(1) polygon([for(i=[0:4]) [10*cos(144*i),10*sin(144*i)]]);
