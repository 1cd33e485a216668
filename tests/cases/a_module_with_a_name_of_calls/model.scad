module m($k = 5) inner();
module inner() echo($k);
m();
m($k = 6);
m(7);