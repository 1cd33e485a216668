module m() inner();
module inner() echo($z);
m($z = 6);
m();