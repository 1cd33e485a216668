rotate_extrude() scale(1000000000) circle(10,$fn=200001);
