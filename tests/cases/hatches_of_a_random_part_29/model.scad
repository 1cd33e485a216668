sphere(d=0.94,$fs=1);
let(a=-.8828679) /* c */ { hull(){rotate(83,[1,0,0]) cube([1.888,1.89,0.421], center = 1); render(convexity=2) cylinder(h=1.2,r=1.25,$fn=5); mirror([1,0,0]) cube([2,3,0.7]);}}
echo("abc", [if(true)norm([70e-1]),"a"], 0, str("a
b", ([14.666, 44.]) * .1882055, "\""));
if(.1537703!=PI) // é
{
difference(){ echo();	echo($children, "\x7f", sin(4)/4);}}
echo(str(0 * 4,
round(3),
7%-3), "s", "😀");
let(l2=PI) { v3 =
4;	linear_extrude(height=0.75,twist=0,scale=1)	circle(d=1,$fn=8);	linear_extrude(height=1.002,center=true)	rotate(-166,[0,0,1]) difference(){
circle(r=0.42,$fn=3);
echo(concat((echo()6)>=min(8)/8, []), // é
is_num("a
b"[0.5E3]), // é
[[for(a=[-1:2])	each each [[6, 11.60],4,[[1,[2]],"ab"]]],each if(!false)for(i5=[11433]) for(k6=0,t=i5;k6<1;k6=k6+1) [k6,13577][1.9] else each each 3],);}}