$q=6.759;
union(){ difference(){ echo((let(l1=(7) + floor(17.404)) 9), false); linear_extrude(height=0.98,center=true) {polygon([for(i=[0:4]) [cos(i*72)+0.5,2*sin(60*i)]]);} v2 = (cos(PI)?(8.421)*0.5:2);} %#hull(){cube([3,0.3+abs([PI,5.418,12748].y)%3,0.6],center=true); translate([1,-0.69]) cube(0.40,center=false);} union(){ translate([2,(4 - 7)%3]) { echo([sin(PI),(3)][-0.5], [for(i3=[PI, 00012], i4=[-2:0]) for(i5=[3:4]) i5], 9.7E+1>2.7E+4); v6 = 12.500; #if((false||13486>1)) cube([0.7,2.72,0.941]);} echo(concat(), "a
b", [-8457 + -2%138451, sqrt(abs((9) + 45.))], [(42.)*0.5,each for(k7=0;k7<4;k7=k7+1) for(k8=0,t=4.3E+0;k8<0;k8=k8+1) 3.995]); mirror([1]) cylinder(h=1.022,r1=0.698,r2=0,$fn=5);}}
let(a=norm([9, 18178])) polyhedron(points=[[0,0,0],[1.3,0,0],[1.3,2.62,0],[0,2.62,0],[0.5,0.5,1.028]],faces=[[0,1,2,3],[4,1,0],[4,2,1],[4,3,2],[4,0,3]]);
echo(sqrt(abs(3))) { let(l10=8/4) { for(i11=[1:-1], i12=[-1:undef]) cylinder(h=0.9,r1=1,r2=1,$fs=0); hull(){sphere(0.3+abs(.759131 - 1.269)%1,$fn=6.9); cube([0.3+abs(15.666)%3,3,1.013]); translate([-1.4836,2,1.1783]) cylinder(0.5,1,0.637,$fn=5);} echo(8.680, "a");}}
;
echo(6, "abc", sin(([abs(9),4][0.999999])));
echo(1);

