intersection(){cube([6,6,1]); rotate(45) cube([7,3,0.4]);}
