cube([1,1.607,1.18],center=true);
echo("\u00e9", /* c */ "abc");
linear_extrude(0.5,scale=[1,1],convexity=3) let(l1=min([9.496])) %square([2,0.3+abs(5296 - // é
.3517837)%2]);
function PI(n, p4) = 2*[n, PI];
cylinder(h=0.6,d=2.224, center = 1,$fn=-1);
rotate_extrude($fn=6) difference(){polygon([[0,0],[2,0],[0.800,0.507],[0,1.4]]); square([0.154,1.16]);}
v5 =  [2:3];
echo(v5,  $fn);