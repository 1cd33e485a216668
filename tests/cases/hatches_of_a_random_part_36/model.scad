function f1(n)=n<=0?PI:1+f1(n-1);
translate([1.49,-2,-1.38]) { n = "\x7f";}
module m4(p5) {echo();}
function f6(p7) = cos(PI)/7;
v8 = "😀";
v9 = [(![0] ? [7,6.992][0.999999]:len(str())),11.114][1];
m4(p5=1906) ;
cylinder(h=0.7,d1=1.115,d2=3, center = 1,$fn=8);
echo(v9, f1(12), v8, f6(13.));