a = 1;
module m() echo(a);
module n() { a = 2; m(); }
n();