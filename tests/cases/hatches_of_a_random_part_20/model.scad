linear_extrude(height=1.0) echo("\t\r") for(i1=[0:1]) translate([i1%3,0,0]) for(i2=[4.674, .5484848, 4]) translate([i2%3,0,0]) circle(1.2,$fa=60);
difference(){ v3 = 24e-6; #intersection_for(i4=[1:4], i=[v3, v3]) cylinder(h=1.22,d1=3,$fn=3);}
echo(PI, []);
function x_1(p7, p8=len([4.9E-2, 3])) = 7;
cylinder(h=0.407,d1=1,center=undef,$fa=90,$fs=0.5);
module m9(p10=2/9) {if(PI>=5.8E-1) cube([1.361,0.5,1.07]); else rotate_extrude($fn=5) square([0.3+abs(1.202%6)%1,0.96]); v11 = "/*";}
function f12(n)=n<=0?9.9E+2:1+f12(n-1);
echo(f12(10), x_1(5.586%6, [3.1E+4,58e1][1]), $fn);