rotate_extrude($fa=[1]);
