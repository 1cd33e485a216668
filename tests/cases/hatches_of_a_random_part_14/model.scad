v1 = cross([-6%34251,1],[2,floor(-1)]);
sphere(0.35,$fn=4);
translate([1,2,2]) scale([0.7,1]) rotate(180) { {cube([2.94,2.99,0.34],center=true);
echo();} difference(){ cube([2.80,0.3+abs((9)*0.5)%3,1.07]); cube([2.6,1,0.93],center=true); v2 = "s";}}
v3 = sign(-1%33.1);
difference(){ if(("s"<(undef)*([PI, 4,]))) { cube([1,2.50,0.3],center=undef); difference(){ echo([each each [[5e-7],([9 * 0, (v3)*(v1),])[len([9.882, 2])],[[1,[2]],"ab"]],[2:3]], [1,2]*[[59.,2],[3,4]], $fa); a = "\\"; cylinder(h=1.3,d1=1,center=undef,$fn=5);}} rotate_extrude($fa=70) square([1,0.50]); echo(v1, v3);}
cube([1.566,0.481,1.15],center=false);
multmatrix([[1,0,0,(0.4E-3 + PI)%3],[0,1,0,0],[0,0.3,1,0]]) { cube(1.08,center=undef); group(); echo(1);}
echo("😀", [for(i4=[2:2]) let(l5=[i4,69.,70.].y)if(v3==v3)each 0 else [PI],each each [[v3, PI]-[0.346],undef,[[1,[2]],"ab"]]], "😀");
echo(v1, v3);
