rotate_extrude(angle=undef,$fn=3) square(1);
