rotate_extrude($fn=25001) square(1,center=true);
