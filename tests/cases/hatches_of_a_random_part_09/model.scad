// a part
module m1() {group(){ translate([(2)%3,1]) linear_extrude(0.66,scale=[1,1],convexity=3) {polygon([[-1,-0.30],[-1.2923,-0.4],[-0.7,1.3],[-1,-0.419],[0.3301,-2]]); polygon([[2,-2],[(round(60.))%3,1],[0.1015,1]]); echo($fn);} if(((let(l2=89e-7, l3=0.0E1) l2)>=len([6, 6, PI]))) { if(!.2653162) cube(1,true); else cylinder(h=1.27,d1=1.98,$fn=5); rotate_extrude($fn=3) square([1,0.2]); echo(false, ([[1,2]]*[[41e0,2],[3,4]]) * 44.+2*[6, [3.282,6,3.6E-3].y], ["a",undef]);}} module m4() {echo() assert(test=true) cube([0.3+abs(3/6)%3,2,0.931],center=undef); rotate_extrude($fa=70) translate([2,(7)%3]) circle(r=0.1,$fn=4); ;} v5 = [-2:-0.5:-2];}
for(i6=[-1:2], size=[-1:1]) cylinder(h=0.7,d=3,$fa=60);
cube([1.43,1.74,1.1],center=false);
cylinder(h=1.016,r=0.3+abs(5.692)%1,d2=0.849,center=undef,$fn=8);
cube([2.14,0.569,0.11], center = 1);
echo($fn);
