module m(a) translate([0, 0, a]) cube(1);
m(3);