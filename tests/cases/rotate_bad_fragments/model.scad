rotate_extrude($fn="x") square(1/0);
