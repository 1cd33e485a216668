cube(1); bracket();
