at = [[0, 0, 0], [6, 0, 0], [6, 6, 2], [0, 6, 2]];
for(i=[0:2]) hull() { translate(at[i]) cube(1); translate(at[i + 1]) cube(1); }