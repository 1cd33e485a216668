rotate_extrude();
