function f(x) = 1;
module f() cube(1);
f = 3;
function g() = 4;
function f(x) = 5;
module m() cube(1);
module m() cube(2);
m = 7;
function ff() = 9;
v = 10;
for (i = [1:12]) { echo(f(i), g(), ff(), f, m, v); m(); f(); }
module few() {
  module m() cube(3);
  function f(x) = 6;
  for (i = [1:12]) { echo(f(i), g(), ff()); m(); f(); }
}
few();
