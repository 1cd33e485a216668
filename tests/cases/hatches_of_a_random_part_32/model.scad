if((([6, 2, 9.679])*([6.564, 6.9E-1])!=str(true<1, [1:0.7:2],))) { cylinder(h=1.1,r=1.475,center=true,$fs=0); } else { echo();}
rotate_extrude($fa=70) square([0.35,1.2]);
echo(a=([4.2E-4, 9.964])*([17.797, 2.7E+4]));
$q=([1.7E-2, 3]/4)[6];
echo(50. + 3>=(55e-2 - (5))*0.5, [if(false<true)for(len=[93., 8]) 8 + 0 else let(l2=5e-7)8.539]/5, str(cross([12., 4, 31e2],[1,2,3]), 4.4E-1 - PI));

