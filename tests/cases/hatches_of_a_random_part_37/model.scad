echo("s");
union(){ assert([0]); assert(true); $fa=50;}
module m1() {module m2(p3) {children([-1:0.5:1.5]); intersection(){ v4 = "é"; multmatrix([[1,0,0,1.4996],[0,1,0,0],[0,0.3,1,0]]) cylinder(h=0.81,d1=0.21,d2=0.3+abs(max(13.436, 4))%3,$fs=0);}} $fn=5; cube([0.3+abs((1.639)/(1+abs(0)))%3,1.70,0.4],center=undef);}
m1() ;
linear_extrude(0.747,scale=[1,1],convexity=3) {v5 = (60e3 - 10. - 11622); circle(0.332,$fn=5); circle(1.41,$fn=6);}
echo(([5])<([4548, 3, 18.466]), text=[1:2], [sin(8)]);
