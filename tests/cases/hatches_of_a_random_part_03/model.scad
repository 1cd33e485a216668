let(l1=(6.3E-0)) { /* c */ linear_extrude(height=1.01,center=true) {rotate(361.5) /* c */ { if(true) circle(d=1,$fs=1); translate([-2]) { circle(d=1.49,$fn=8); b = (let(l2=-3%187541, cube=PI) [66.]); echo(8.7E-1, [8, /* c */ cos(min(len([80., 7.638]))), /* c */ 11.480 - .5107117], [3:3]);}} difference(){ scale([1,2,0.5]) { circle(0.697,$fs=1); square(0.364);}
if((nowhere=="abc")) { echo("\t\r", [nowhere,76.]); echo(3);}} rotate(180) { group(){ echo(min(9), [1.4E-4 -
.4337330,0 + /* c */ .3965659 * 63e-2,+len([66e3])].y /* c */ + abs(4.1E+1
+ /* c */ (PI)*0.5)); polygon([[0,0],[3,0],[3,3],[0,3],[1,1],[2,1],[2,2],[1,2]],[[0,1,2,3],[4,5,6,7]]);} v4 = concat(nowhere); echo(v4, $fn);} } $q=[2:-0.5:2];}
linear_extrude(1.107,scale=[1,1],convexity=3) {for(i5=[1:-1]) translate([i5%3,0,0]) polygon(points=[[0.284,-1],[(1547
- 4)%3,-2],[1,1.968],[-1.177,2],[1,1]],paths=[0,1,2]); square([1.550,0.586]);}
echo(9 *
1 * 17.142);
