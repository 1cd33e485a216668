rotate_extrude($fn=100) circle(1,$fn=200001);
