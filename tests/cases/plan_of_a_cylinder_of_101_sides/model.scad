cylinder(h=0.4,r=8,$fn=101);
