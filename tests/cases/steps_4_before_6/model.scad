rotate_extrude($fn=3) square(5000,center=true);
