linear_extrude(1,$fn=7) circle(4);
