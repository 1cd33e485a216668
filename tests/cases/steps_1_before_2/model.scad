for(i=[1:4096]) cube(0); rotate_extrude() circle(1,$fn=200001);
