echo([[-1:-1],if(true)nowhere], is_undef(""), abs(((4==1 ? min([37e2, 1, 4]):round(7)))*0.5));
for(i1=[[PI,3509][1]%3:-1%3]) translate([i1%3,0,0]) translate([0]) linear_extrude(height=1.16) {hull(){rotate(-17.3) square([1.75,2]); rotate(30) square(0.84, center = 1); mirror([1,1,0]) square([0.933,1.2]);} echo(str([4:-0.5:1], [-1:1], (3517==18.842 ? 18.316:68.)), [10.418, 0, 0], [+sqrt(abs(11.572)),for(f=[i1%3:-2%3], i3=[1:3]) (f)*0.5/-5]); square(1);}
v4 = 96e0;
%#hull(){translate([(max(5, 3.593, 7.4E0))%3,1.903,0.369]) cube([2.0,2.0,0.2],center=undef); cube(0.59); mirror([0,0,1]) cube(0.37,center=false);}
cylinder(h=1.32,d1=0.285, center = 1,$fa=90,$fs=0.5);
rotate(361.5) linear_extrude(1.2) polygon([[(abs(5))%3,0.7],[-2,-0.3857],[-2,-0.3939],[0.69,1.3079],[1.4,1.6],[0.8,-0.909]]);
v5 = 9.895;
if(false){}
echo(v4, v5);