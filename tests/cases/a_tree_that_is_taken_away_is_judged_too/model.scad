module n(k) if (k > 1) difference() { n(k - 1); cube(1); } else cube(2);
difference() { cube(1); n(201); }