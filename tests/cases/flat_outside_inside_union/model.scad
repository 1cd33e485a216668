union(){ cube(1); circle(2); }
