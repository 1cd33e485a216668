rotate_extrude($fn=3) scale([0,1]) square(1);
