module m() m();
m();