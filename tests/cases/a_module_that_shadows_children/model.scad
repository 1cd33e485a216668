module children() echo("mine");
module m() children();
m() cube(1);