module tower(n){if(n>0){cube([n*2,n*1.5,0.4]); translate([0.3,0.3,0.4]) tower(n-1);}} tower(4);
