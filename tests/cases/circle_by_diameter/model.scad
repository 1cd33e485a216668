linear_extrude(1) circle(d=3,$fn=5);
