rotate_extrude($fn=4) square(1);
