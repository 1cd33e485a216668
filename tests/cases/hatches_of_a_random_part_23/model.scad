// a part
module m1(p2=6) {polyhedron([[0,0,0],[2,0,0],[0,0.521,0],[0,0,0.65],[9,9,0]],[[2,1,0],[1,3,0],[2,3,1],[3,2,0]],convexity=2); hull(){sphere(r=1,$fn=6.9); translate([0.97]) cylinder(h=0.6,d1=3,$fn=6.9); scale([0.7,1]) polyhedron([[0,0,0],[0.3+abs(max(65.))%3,0,0],[0,0.73,0],[0,0,0.39]],[[0,1,2],[0,3,1],[1,3,2],[0,2,3]]);} translate([(7)%3,-1.376]) scale([2]) if(9>=7) { cube([0.89,3,0.32]);} else cylinder(h=1.11,d=0.3+abs(-0.)%3,center=undef,$fn=-1); echo(p2);}
m1(-10.971) ;
if(false) { cylinder(h=0.422,r1=0.3+abs(1/0.000000001)%1,r2=0,$fn=6.9); for(i3=[7, 6]) translate([i3%3,0,0]) group(); a = [ord("😀"),8]*[[8 + 5,84.][1.9],0.5];} else { rotate_extrude($fn=6) square([0.13,0.315]); *rotate(30) let(l4=20e3) translate([1.117,1.89,-0.09]) %cylinder(h=0.401,d=2.532, center = 1,$fn=8); v5 = 1.94;}
group();
echo([sign((11591)/(1+abs(sign(7)))),(echo()0 - 81.),77. - sin(+4.9e-7)].z, min(6)!=27e-6, len(2*[3, 1]+[.7908854, 767])<.3799447 * 20.837);
