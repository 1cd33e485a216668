rotate_extrude($fn=3) scale(1000000000) square(10);
