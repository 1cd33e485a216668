// é
rotate(90) { rotate_extrude($fn=5) translate([2,(max(20.444, 2, 12.889))%3]) circle(r=0.473,$fn=6); }
if((9.8E3==7&&.5182664>1)) if(true) if(!true) { v1 = concat("a", [5e-7, 0]); echo((4), (8>7540?[7.868]:v1));} else linear_extrude(height=1.09,center=true) square([1,1.59]);
group(){ if(9>7.222) echo(a=([96e1])||([4])) { b = "/*";} else linear_extrude(height=0.60) {echo();} cylinder(h=1.2,r=0.56,center=true,$fa=60); mirror([1,1,0]) linear_extrude(1.1,scale=[1,1],convexity=3) hull(){square(1.97,center=true);}}
rotate_extrude($fn=3) translate([2,-2]) circle(r=0.306,$fn=4);
hull(){rotate([16,-9,-71]) cube([3,1.12,1.0],center=true); cube([1,0.165,0.332]); translate([0]) cube([2,0.756,0.974]);}

