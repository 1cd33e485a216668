for(i=[1:4096]) rotate_extrude($fn=3) square(0); rotate_extrude($fn=3) square(1);
