module n(k) if (k > 1) difference() { n(k - 1); cube(1); } else cube(2);
for (i = [1:2]) { echo(i); n(200); cube(1); }