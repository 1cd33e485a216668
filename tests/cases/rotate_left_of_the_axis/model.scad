rotate_extrude($fn=4) translate([-1,0]) square(1);
