m(2);
module m(a) cube(a);