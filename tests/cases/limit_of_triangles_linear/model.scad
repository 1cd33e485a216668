linear_extrude(1) circle(1,$fn=50001);
