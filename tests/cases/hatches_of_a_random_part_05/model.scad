// é
function f1(p2=5, /* c */ p3=1000000000) = (let(l4=(PI), l5=-p2) ceil(p3));
;
rotate_extrude($fn=5) difference(){translate([2,-1]) circle(r=1,$fn=4); square([1,1.3]);}
rotate_extrude($fn=5) mirror([1,0]) hull(){square([1.5,1.373]); square([1,1.11]);}
v6 = ([]==undef ? (13.880):2);
linear_extrude(height=1.015,center=true) {square([2,0.2], center = 1); square([1.18,0.77],center=false); $fs=0.7; echo(v6, f1(PI, 54.%5));}
intersection_for(i7=[2:1:-1],  i8=[1:1]) translate([i8%3,0,0]) if(PI>=i7) cube([0.3+abs(6.3E1)%3,0.001,0.25]); else { union(){} echo(v6, i8, i7);}
function f9() = [.7561909, v6, 16748];
echo(v6, f9());