// a part
rotate_extrude(angle=360,$fn=4) difference(){square([1.5,1.306]); polygon([[0,0],[0.682,0],[1.81,0.9],[0,0.51]]);}
cube([3,2.445,0.262]);
polyhedron([[0,0,0],[0.36,0,0],[0,1,0],[0,0,0.27],[9,9,0]],[[2,1,0],[1,3,0],[2,3,1],[3,2,0]],convexity=2);
translate([-0.80,1.1,0]) { rotate([0,0]) { cylinder(h=1.02,r1=1,r2=0,$fn=6.9); v1 = str("abc",); scale([-1,1,1]) rotate_extrude($fn=4) polygon([[0,0],[0,0],[1.6,1.2],[0,1.24]]);}}
module m2(p3, p4, p5) {children(true); linear_extrude(1.015,scale=[1,1],convexity=3) {echo(![1:0], a=p5); translate([-0.5332,-1]) for(i6="x y") circle(r=0.3+abs(p3)%1,$fs=1); echo([[8.169,18.899,PI].y - p3 * 8/5,13233 * 8.842], "s", ceil((p4)*0.5)<1);}}
cube([1,2.95,0.78]);
echo([if(3>13520)each [-1:-1] else undef,2*[(1), cross([20.524,1],[2,0.859]), len("\t\r")]], [each each undef,if(.4746389<=6)let(l7=1)sin(PI)], chr(65.9), "\U01F600");
rotate_extrude(angle=360,$fn=4) square([0.889,0.152]);
echo($fn);