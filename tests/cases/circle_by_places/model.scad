linear_extrude(1) circle(7,3,$fn=5);
