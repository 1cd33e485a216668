module m1(p2=1 + 9, p3, p4) {module m5(p6) {for(i7=[6.4E-1, 8]) translate([i7%3,0,0]) rotate_extrude($fn=6) rotate(0.0004) hull(){translate([2,-1.2]) circle(r=0.678,$fn=6); translate([2,0]) circle(r=0.52,$fn=6);} echo(p4, p6, p3, p2);}}
translate([-0.0803,1.85,1]) linear_extrude(height=0.550,twist=0,scale=1) circle(1,$fn=6);
cube([2.5,3,0.8]);
