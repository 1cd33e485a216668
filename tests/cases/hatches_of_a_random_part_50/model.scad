if(!undef) { for(i1=[1:-1:1]) translate([i1%3,0,0]) cube(1.172); linear_extrude(height=0.1) {square([0.7,2],center=true); circle(d=0.0004,$fn=8);} cube([2.9,0.334,0.311]);} else { echo([1.964], 1, round(3), 153 - 7 * 6 * 28e0 + sign(PI)); cylinder(h=0.41,r1=1.36,r2=1, center = 1,$fn=5);}
group(){ $fa=50; if("1"==1) translate([1.7,1,-2]) cube([0.50,0.3+abs((66e1!=.2548067 ? 9:7))%3,1.29],center=undef); ; }
module m2(p3, p4, p5) {echo(undef); for(i6=[3:6], i7=[0:0]) cube([1.3,0.5,0.71]);}
assert(!false, text=1);
let(l8=9.2E-4) { v9 = len([9e-7, 6.314]) - 2%-2; cube([3,3,0.960]);}
