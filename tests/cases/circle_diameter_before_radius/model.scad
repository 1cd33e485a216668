linear_extrude(1) circle(r=-1,d=3,$fn=5);
