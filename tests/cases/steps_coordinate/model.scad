rotate_extrude($fn=3) square(1001);
