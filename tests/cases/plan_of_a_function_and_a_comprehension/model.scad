function wave(i)=i%2==0?3:5; linear_extrude(height=0.4) polygon([for(i=[0:9]) wave(i)*[cos(i*36),sin(i*36)]]);
