hull() { echo("inside") difference() { cube(2); cube(1); } }
echo("behind");