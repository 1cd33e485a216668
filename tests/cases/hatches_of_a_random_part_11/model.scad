echo("/*", [for(i1=[6.7E-4, .5850283, 6.2E+1]) nowhere,for(i2=[17.664]) for(i3=[7.5E-2])
each undef], (floor(6)	* 15.83), ((PI)>=.6797157 // é
? ord("\u00e9"):30.) + PI);
rotate_extrude($fa=70) hull(){translate([2,0.7]) circle(r=0.66,$fn=5); polygon([[0,0],[1,0],[1,0.14],[0,1.138]]);}
mirror([1,2,3]) cube(1.0,center=undef);
module m4(p5=len([73.]), p6) {intersection(){ assert([1:0]) polyhedron([[0,0,0],[1,0,0],[0,0.8,0],[0,0,0.2]],[[0,1,2],[0,3,1],[1,3,2],[0,2,3]]); rotate([90,-55,32]) linear_extrude(height=1.4,twist=0,scale=1) square([1,1]);}	children($children-1);	b = /* c */ [16.36,cross([PI,1],[2,max([47.])])][-0.5];}
rotate(-17.3) difference(){	translate([1.3,2])
hull(){translate([2,1,1.2]) cube([0.6,1,1.2],center=undef);} v7	=  "";}
