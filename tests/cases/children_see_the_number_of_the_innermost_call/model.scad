module a() { echo($children); b() { cube(1); cube(1); } children(); }
module b() echo($children);
a() echo($children);