rotate_extrude(angle=1,$fn="x") square(1);
