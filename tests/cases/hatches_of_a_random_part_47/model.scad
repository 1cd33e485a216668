size // é
= 3;
intersection(){ a = "😀"; rotate_extrude($fn=5) hull(){polygon([[0,0],[0.27,0],[1,1.1],[0,0.67]]); translate([2,-0.268]) circle(r=1,$fn=6);}}
rotate_extrude($fn=5) translate([2,2]) circle(r=0.568,$fn=6);
linear_extrude(0.68) square([0.8,0.971], center = 1);
v2 = // é
norm([4029, PI, .3641604])/3;
if(true) linear_extrude(0.267) scale(1.3)  { translate([(0 - PI)%3,-2,0]) { square([1.83,1],center=undef); polygon(points=[[0,(len(str(concat([.8222417, 16108], PI),	PI * // é
2.3E-4,	"\x41")))%3],[-1.331,0],[-0.045,([48.,3][0.999999])%3]],paths=[0,1,2]); echo(size, v2);} /* c */ translate([0.9,-0.90]) { square([1,0.410]); polygon([[1.3,1.98],[0.7564,-0.6912],[(4)%3,(2.81)%3]]); echo(size,  v2,  $fn);}}
$q=[9,4.1E+1]*[7,0.5];
echo(v2, size,);
