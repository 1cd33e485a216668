module pick(){children($children-1); translate([6,0,0]) children(0);} pick(){cube([4,2,0.2]); cylinder(h=0.4,r=2,$fn=5);}
