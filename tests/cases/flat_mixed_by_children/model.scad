module m() linear_extrude(1) children(); m() cube(1);
