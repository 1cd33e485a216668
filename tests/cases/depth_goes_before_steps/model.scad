module m() m();
x = [for (i = [1:100000]) i];
m();