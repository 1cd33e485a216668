rotate_extrude() scale(1000000000) square(10,center=true);
