linear_extrude(height=2.000001,center=true) square(1);
