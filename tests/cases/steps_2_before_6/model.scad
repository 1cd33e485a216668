rotate_extrude($fn=3) circle(5000,$fn=200001);
