rotate_extrude($fn=3) circle(1,$fn=200001);
