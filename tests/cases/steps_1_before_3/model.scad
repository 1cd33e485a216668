for(i=[1:4096]) cube(0); rotate_extrude() scale(1000000000) square(10);
