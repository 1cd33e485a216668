module m(n) if (n > 0) { cube(n); m(n - 1); }
m(5);