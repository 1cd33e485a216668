// a part
v1=[6,4][1.9]==18.396%-5;translate([(cross([10.200,1],[2,10.]))%3])cylinder(h=1.36,r=0.3+abs((16.498))%1,center=undef,$fn=4);linear_extrude(height=0.2,twist=0,scale=1)echo(){square([0,0.299],center=true);if((sign(12e0)/-6==max([1000000000,5,19.364])))square(1); else {for(i2=[3.476,59e-7],)translate([i2%3,0,0]) circle(1.5,$fa=90,$fs=0.5);translate([-2,-1.749])polygon([[((9))%3,1.5418],[1.758,-1.488],[0.518,0]]);v3=1.63;}let(l4=14.604-1e-7)intersection(){square(1.20);b=16.336;}}rotate([31,21,-37])rotate([-11,24,-4]){a=[6];cube([0.5,0.5,0.818]);}
echo(v1);
