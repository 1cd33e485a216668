for(i=[1:4096]) cube(0); rotate_extrude() square(1,center=true);
