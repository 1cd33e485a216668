for(i=[1:40]) echo(i); cube([2,2,1.4]);
