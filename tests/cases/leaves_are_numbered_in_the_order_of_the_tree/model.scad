module late() children(1);
module early() children(0);
module both() { late() { children(0); children(1); } early() { children(0); children(1); } }
both() { cube(1); sphere(1, $fn = 5); }