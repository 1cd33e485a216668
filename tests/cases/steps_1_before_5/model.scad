for(i=[1:4096]) cube(0); rotate_extrude($fn=25001) square(1);
