rotate([43,-9,-22])	rotate(90) { linear_extrude(0.3,scale=[1,1],convexity=3) {multmatrix([[1,-0.2,0,-1],[0,1,0,0],[0,0,1,0]]) square(0.8); echo(-6%28e01%-4, chr(65), [for(k1=0,t=6.107;k1<3;k1=k1+1) 4,], [for(i2=[-2:-1], $fn=[2:1:-1]) if(2!=45.)if(true)each .8022158 else each [3:-0.5:3] else is_list(str((34.), "")),each "\""]); group(){ square([0.40,2]); v4 = 2*[for(i5=[-2:2:0]) PI - 4, each 17.831
- .2298290]; echo(v4);}}}
cube([0.3+abs(min([62.]))%3,1,1.13],center=true);
if(!false)	{ group(){ linear_extrude(height=0.6,twist=0,scale=1) circle(r=0.3+abs(18.206 -
2)%1,$fn=3); linear_extrude(0.6,scale=[1,1],convexity=3) {polygon([[0,0],[3,0],[3,3],[0,3],[1,1],[2,1],[2,2],[1,2]],[[0,1,2,3],[4,5,6,7]]);}} v6 = (let() concat(str([-2:0.7:-2], [1:1]!=[3:1:2], PI),  14160,  "")-2*[18.962, 20.595,]); difference(){ ; cube([2.23,3,0.53],center=true);}}
difference(){ v7 = 2; if(false) { difference(){ linear_extrude(0.45) {polygon([for(i=[0:4]) [cos(i*72)+0.5,sin(i*72)]]);} # translate([1,-1,-1]) cylinder(h=1.34,r=0.1,d2=0.0004,$fn=7); echo(v7,);} polyhedron([[0,0,0],[0.3+abs(ceil(6))%3,0,0],[0,1.34,0],[0,0,0.613],[9,9,0]],[[2,1,0],[1,3,0],[2,3,1],[3,2,0]],convexity=2); a = /* c */ 0; echo(a,  v7,);}}

