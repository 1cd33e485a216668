rotate_extrude($fn=25001) scale(1000000000) square(10);
