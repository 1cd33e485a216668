$fn = 8;
sphere(5);
union() { $fn = 4; sphere(5); }