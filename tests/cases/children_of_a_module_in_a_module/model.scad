module m() { module inner() { echo($children); children(); } inner() echo("written inside"); }
m() echo("written outside");