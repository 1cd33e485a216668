echo(let (a = 1, b = a + 1) a + b, let () 5, let ($k = 2) f());
function f() = $k;