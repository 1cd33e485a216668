module m() children();
for (i = [1:3]) m() echo(i);