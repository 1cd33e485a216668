module m() { module inner() cube(1); inner(); }
m();
inner();