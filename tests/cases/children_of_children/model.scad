module outer() { cube(1); inner() { children(); sphere(1, $fn = 5); } }
module inner() difference() { children(1); children(0); }
outer() cylinder(1, 1, 1, $fn = 5);