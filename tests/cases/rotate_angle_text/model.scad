rotate_extrude(angle="360") square(1);
