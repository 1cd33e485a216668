linear_extrude(1) circle(5000,$fn=60000);
