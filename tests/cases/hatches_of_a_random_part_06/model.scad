linear_extrude(0.53,scale=[1,1],convexity=3) {hull(){square([0.456,0.364]); rotate(0.0004) polygon([[0.8206,-1.30],[(7)%3,2],[-2,-0.7],[-1.191,0.9],[2,1]]);}}
difference(){ rotate(361.5) { linear_extrude(height=0.29,center=true) {for(i1=[49., 7, 3]) circle(r=1,$fn=4);}} linear_extrude(height=0.835) translate([1]) { echo(nowhere, [-1:1]==[-2:-2]);} for(i2=[9], i3=[-2:0.5:1]) cylinder(h=0.453,r1=1.293,r2=0.265,$fn=5);}
function f() = [for(k5=0;k5<1;k5=k5+1) [7,2][1], for(i6=[PI]) 9.8E-0, each 8.1E+3];
