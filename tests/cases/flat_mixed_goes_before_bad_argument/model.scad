linear_extrude(1) cube("a");
