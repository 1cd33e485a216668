echo("\n");
b = floor(ceil(94e0));
group(){ echo([for(i1=[2:2])	if([1]<[2])each "s" else each i1,([1]/5)[75.]], 52e-5%-7, "a
b"); echo([each 3,
each each [[1, 9]+[.2689660, 19804, 8],[13765],[[1,[2]],"ab"]],
each each [[PI],([])[2.7E+0],[[1,[2]],"ab"]]], undef, [6]);}
linear_extrude(0.15,scale=[1,1],convexity=3) {echo([if(!false)[1:undef].y,for(i2=[-1:-1], i=[2:2])
each "x y"[6]],  [each [7 -	1]+-[6.9E+4, 2, 15.28],undef]);
rotate(0.0004) {
v4
= 1.93; square([0.17,0.3+abs((5)*0.5)%2],center=undef);}
echo(b);}
if(6<=6) /* c */ { linear_extrude(height=1.29,twist=0,scale=1) union(){
circle(1,$fn=5); echo();} echo(undef,  "s");}
difference(){ v5 = [[1,2],[3,7.107]]*[1,2,3]; b = "a
b"; echo(v5, b);}
union(){ rotate(45) { v6 = concat(3.5E+3, nowhere, ord("a
b")); if(81e0!=5) assert([1:0]) { cube(1.071,center=false);} else { v7
= "//"; rotate_extrude($fn=4) square([1.433,1.11]); cylinder(0.6,0.91,1,center=undef,$fn=5);}}  a = [1:-0.5:1];}
echo(b);