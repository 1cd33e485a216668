rotate_extrude(angle=360,$fn=3) square(1);
