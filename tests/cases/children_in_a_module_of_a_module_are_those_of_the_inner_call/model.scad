module m() { module inner() children(); inner(); }
m() echo("of m");