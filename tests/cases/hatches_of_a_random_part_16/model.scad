cube([1.826,3,0.95], center = 1);
if(4>=839) { v1 = "a"; /* c */ ; /* c */ b =	[(echo([-2:-2], is_num(nowhere))(let(l2=16.38) 0.0E+4)),3/[1,0],cross([93e-8,1],[2,[0e99999,12e3][-0.5]])].z;}
cube([1.3,1,0.259], center = 1);
v3 =  [2,PI -
9 +	7.2E+0][0.999999];
module m4() // é
{module m5()	{children(true); if(v3<=17.528) cube(size=0.6,convexity=3); else cube(0.1,center=true); rotate([180,0]) rotate_extrude($fn=3) hull(){square([0,0.74]); polygon([[0,0],[1.3,0],[2,0.36],[0,1.1]]);} echo(v3);}
function f6() = tan(28);
rotate(-82,[0,0,1]) children();
echo(v3);}
echo(4.41/9, (let() sqrt(abs(46e0))));
echo(v3);