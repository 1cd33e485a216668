echo(1); cube([3,3,0.2]);
