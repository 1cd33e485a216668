module m() echo(1);
m();
module m() echo(2);