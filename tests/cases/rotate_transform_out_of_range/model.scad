rotate_extrude() scale(1000000000) scale(1000000000) square(1);
