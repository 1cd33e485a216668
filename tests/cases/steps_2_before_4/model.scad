rotate_extrude() circle(1,$fn=200001);
