linear_extrude(1) circle([1]);
