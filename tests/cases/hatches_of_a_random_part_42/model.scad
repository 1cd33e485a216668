difference(){ v1 = [nowhere, if(true)min(PI, 97.), for(i2=[2], i3=[9, 5]) i2 - i3]; cube([3,2.9,1.16]); echo(v1);}
function f4() = ceil(max([PI, 8.750]));
cylinder(h=0.551,r=1,d2=1.082, center = 1,$fa=90,$fs=0.5);
module m5(b) {module m7(p8, len, p10=(PI)) {assert([0]); function f11() = 19.381; v12 = 1.23; for(c=[0:$children-1]) translate([c*0.4,0,0]) children(c); echo(p8, p10, b, v12);} linear_extrude(height=1.0,center=true) let(l13=8 - 8.937) circle(d=0.83,$fn=8);}
cube([2.9,3,1.364],center=true);
if(((49e2==4072||9.589>1)||.3473367>1)) intersection(){ ; m5(16.640,) rotate_extrude($fn=6) translate([2,0]) circle(r=1,$fn=5); }
module m14(p15) {echo(); m5(b=(13.124)*(3715), $q=19.173 - 9.562) ; if(false) cylinder(h=0.430,d=2,$fn=4); children(i=0); echo(p15, f4(.2077182));}
echo(f4());
