// a part
echo("s", "");
linear_extrude(1.143) intersection_for(i1=[0:2]) translate([-2,1]) { v2 = [if(!3)8.9E+2 else "x y"]; echo("😀", "a"); square([1,1.15],center=true);}
echo(![5, 3], [each true,for(k3=0,t=3;k3<4;k3=k3+1) for(i4=true) each k3], ![]);
function f5(p6, p7=PI, p8=7) = ("s")%([0.603, 52e-4]);
translate([1.8397,-0.9,0.8]) { echo([2:5]!=[-1:-1], [1,2,3]*[[9,2],[3,4]]); echo(f5(p6=7178%6, .5076472 - 0, p8=f5(8, 7, p8=PI, $preview)), $fn);}
hull(){scale(1.3) cylinder(0.50,0.3,1.32,$fn=5); cylinder(h=0.819,d1=0.33,d2=2.0,center=false,$fa=90,$fs=0.5);}
echo(f5(4.6E+3, min([3, PI, 2]), 2 - 0));
