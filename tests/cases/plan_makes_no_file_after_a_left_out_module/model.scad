echo(1); minkowski(){cube(1); cube(1);}
