hull(){translate([0.1075,0,1.68]) cylinder(h=0.7,r1=0.76,r2=1.2,center=true,$fn=4); rotate(-17.3) cylinder(h=1.322,r1=1.46,r2=0,$fs=1);}
group(){ %#linear_extrude(1.3) rotate(90) { b = (true)&&([0e99999, 5.528, 7,]);} cylinder(h=0.467,r1=0.97,r2=1.359,$fn=4);}
echo(len((let(l1=6) (75.>19.180?[11.981, 2]:[9])))>634, (is_list(cos(.1718284))&&14.775>1));
a = 1.04;
hull(){rotate(-62,[1,0,0]) cube([a,1,1.4]);}
polyhedron([[0,0,0],[a,0,0],[0,0.3+abs(3165 * 0)%3,0],[0,0,0.290]],[[0,1,2],[0,3,1],[1,3,2],[0,2,3]]);
rotate_extrude($fn=4) hull(){square([0.3+abs((7.7E-4))%1,1.395]); square([0.2,0.85]);}
echo([3:-0.5:0], (PI), [a%2, 0.8E4]);
echo(a);