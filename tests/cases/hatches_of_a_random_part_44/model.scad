intersection(){ a = "x y"; translate([0.6,(9.591)%3,2]) intersection(){ a = [len("\n"), len([15.315]) + 63e-5, 3]; echo([0:2]==[0:1:2], [for(i1=[3:6]) for(i2=[1:3]) for(i3=[1:3]) let(l4=norm([PI, 3]))[11.332,i1,i3].y,if(9<6)[3:undef]], [1,2,3]*[[5,2],[3,4]]); difference(){ cylinder(h=1.0,d1=1.8, center = 1,$fa=90,$fs=0.5); cube([0.6,1.72,0.23],center=true); cube([1,1,0.9]);}} *linear_extrude(1.235,scale=[1,1],convexity=3) difference(){ echo($q=[1:-1:-2]!=[0:1:-2], (-[7.944, 3e1])[floor(0)]); polygon([[2,1.6],[-0.54,-1],[-0.54,-2],[-1.6,0],[2,2]]); rotate([58,64,-89]) { circle(r=1,$fn=6.9); square([1,1],center=undef); echo(a);}}}
echo("s", false, text="s");
function f5(n)=n<=0?2.8E-0:1+f5(n-1);
function f7($p, p8) = sign(f5(5));
if(true) cylinder(h=0.827,d=1.2,$fn=8);
render(convexity=2) cube([2.1,3,1.2],center=true);
module x_1(p10) {echo(nowhere, [3:3], f7([f5(5),9.717][1], p8=let() PI)); linear_extrude(height=1.25,center=true) mirror([0,0,0]) circle(r=0.87,$fn=3); v11 = f7($p=max(3.894 * 12.118, p10), +p10); children(i=0);}
echo(f5(5), f7($p=19.995));
