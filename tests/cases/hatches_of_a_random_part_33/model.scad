cylinder(h=0.755,d1=1,d2=1.73,center=false,$fa=90,$fs=0.5);
let(l1=81. + 5) hull(){translate([1.5135,0.6,(0)%3]) cylinder(h=0.10,d1=1.859, center = 1,$fn=5); cube([2,2.2,0.9],center=false); rotate([0,0,90]) cube([1.04,1.60,1.157],center=false);}
function f2(p3=3, p4, p5=20.730) = (assert(true)p3 - 0);

