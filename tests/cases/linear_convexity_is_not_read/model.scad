linear_extrude(1,convexity="x",slices=3) square(1);
