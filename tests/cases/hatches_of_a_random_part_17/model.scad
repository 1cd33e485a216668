// é
let(l1=sign(4072)) { echo($q=62e-1); echo(10109, "x y", 9.944,);}
cube = (max(.7553590 - PI, [7,7.609][-0.5]))/(1+abs(PI - 7));
cube([2.170,3,0.8],center=true);
union(){ linear_extrude(height=1.165,twist=0,scale=1) translate([-0.5903,-1,1]) polygon([[-0.1743,-2],[1.005,-2],[-2,(cos(PI))%3],[(cube)%3,0]]); scale(1.3) %#linear_extrude(0.69) echo() { #circle(d=0.1,$fn=4); square([1,1.3], center = 1);}}
linear_extrude(height=0.327) {v3 = "\n"; v4 = ((.6750941)*([2])?6.461:2); union(){ color("red") { a = str();} difference(){ if([1,2]!=[1]) { v5 = "😀"; square([1,2]);} echo(); mirror([1]) { square([0.3+abs((9>=20.901 ? PI:11140))%2,0.3+abs(floor(v4))%2],center=true); polygon([[0,0],[3,0],[3,3],[0,3],[1,1],[2,1],[2,2],[1,2]],[[0,1,2,3],[4,5,6,7]]);}} echo(v4, v3, cube);}}