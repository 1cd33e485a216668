linear_extrude(height="1") square(1);
