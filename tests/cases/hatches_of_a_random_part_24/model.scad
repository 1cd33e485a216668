// a part
v1 = (assert([0])(.4888682!=11.954 ? 50.:.4026937));
translate([-1.928,2,-1]) { difference(){ echo((v1)>(tan(38))*(7), "abc", [if(v1>=5.196)if("a"<"á")for(k2=0;k2<3;k2=k2+1) for(i3=[3:6], i4="😀") (i4)*0.5 else each each each [[v1, 0.184%-3],"\n",[[1,[2]],"ab"]],for(i5=[-2:-2], i6=[19.168, PI]) each [54., 13.616, 8]], 3.6E-0 - max([v1])/7,); let(l7=v1 - .8741869) { $fn=5; intersection_for(i8=[72e-8, 16., 9]) cube([2.5,0.82,1.253],center=undef); echo(v1);} v9 = 2*[18.546 + 8, v1 + 0];} rotate_extrude($fn=5) difference(){translate([2,-1]) circle(r=0.3+abs(5)%1,$fn=5); square([1,1.05]);} scale(0.5) cylinder(h=0.160,r=1.388,$fn=4);}
cylinder(h=0.66,d=3,center=true,$fn=-1);
function f10(n)=n<=0?3 - 9:1+f10(n-1);
echo("//", []);
module m14(f, p16) {assert(true, text=1); linear_extrude(1.0,scale=[1,1],convexity=3) {assert("a"); square(0.3+abs(-3)%2,center=false); v17 = 1;} mirror([0,0,0]) children(); hull(){translate([(sin(v1))%3,-0,2]) cube([2.2,0.3+abs(f10(9))%3,0.868]); cylinder(1.0,1.171,0.9,center=true,$fn=5);} echo(f10(9), f, v1, p16);}
cube(1);