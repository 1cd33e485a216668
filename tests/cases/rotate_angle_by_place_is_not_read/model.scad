rotate_extrude(90,$fn=3) square(1);
