for(i=[1:4096]) cube(0); rotate_extrude($fn=3) square(1001);
