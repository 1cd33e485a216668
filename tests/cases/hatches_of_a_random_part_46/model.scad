v1 = (3.632%-7);
translate([-1.5844,0]) { echo("x y", [cross([15.382, 7, 8],[1,2,3]),-[5%6, 12.742]/3], [14822 - 3, ([1]<[2] ? 2882:6), 6 + round([3480,3.6E-0][-0.5])], 12.311);}
hull(){translate([2,-2]) cylinder(0.36,0.3+abs((v1))%1,1,$fn=5); rotate([0,0]) cube([0.234,2.517,0.1]); cube([1.56,2,1.34],center=true);}
intersection(){ linear_extrude(height=0.5) circle(1,$fn=8); v2 = 1.16; echo(v1, v2, $fn);}
{translate([1,-1,-1]) { v3 = [[1,2],[3,4]]*[1,2]; echo(text=nowhere, 10669); assert("a"); echo(v1, v3, $fn);}}
echo(v1);
