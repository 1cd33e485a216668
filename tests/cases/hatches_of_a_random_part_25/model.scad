v1 = 1.64;
linear_extrude(height=0.4) /* c */ {$q=![3:3].z; intersection(){
a = [1,2]*[[93.,2],[3,4]]; v2 = 0.31; echo(a, v1, v2);} echo(v1, $fn);}
cylinder(h=0.349,r1=v1,r2=0.76,$fs=0);
mirror([1,2,3])
difference(){ if(0<8) {  rotate(0.0004) sphere(r=0.3+abs((3))%1,$fn=-1);} v3 /* c */ = [([5,.5496068][0.999999]),cos(7.8E2)/3][0.999999]; echo(v1, /* c */ v3);}
echo(v1);
