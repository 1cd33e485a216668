for(i=[1:4096]) cube(0); linear_extrude(1) circle(1,$fn=60000);
