cylinder(h=0.6,r=1.4,center=undef,$fs=0);
if(!undef) linear_extrude(1.0,scale=[1,1],convexity=3) {v1 = [0]-2*[7.443];}
echo();
module m2(p3=cross([1.7E-1,1],[2,15.]), p4=3) {if(11.457>=p4) { echo([(p4?(let(l5=p4) l5) + p3:sqrt(abs((.2729198)*0.5)))], (2*[16.71, 7.434 + 6.483, p3 - p3]) * .875679/5, chr(8364), [-91e2%41, cos(19.510)/8, (echo(![])30. - p3 + p4)]); v6 = 6; if(true<1) rotate_extrude($fn=6) difference(){square([0.453,1.2]); square([0.3+abs(p3)%1,0.7]);}} linear_extrude(0.72,scale=[1,1],convexity=3) circle(0.9,$fs=1); x_1 = p4;}
rotate_extrude($fn=6) polygon([[0,0],[1.9,0],[1,0.675],[0,0.2]]);
function f8(p9, p10=6) = [p10 * 3];
echo();
function f11(n)=n<=0?13.542:1+f11(n-1);
echo(f11(10));