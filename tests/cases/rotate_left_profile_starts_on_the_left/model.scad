rotate_extrude($fn=5) translate([-5,0]) square(2);
