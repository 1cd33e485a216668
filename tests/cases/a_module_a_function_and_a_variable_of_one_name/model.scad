f = 2;
function f(x) = x + 1;
module f() cube(f(f));
f();