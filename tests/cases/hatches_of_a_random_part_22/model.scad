v1=[1,16754];v2=(3!=PI?2*[3]:[if(false)sin(PI) else 3]);function f3(n)=n<=0?7294-0:1+f3(n-1);rotate_extrude(angle=360,$fn=4) difference(){polygon([[0,0],[0.8,0],[2,1.17],[0,1.25]]); square([1,0.276]);}$fa=50;
echo(f3(12),v1,v2);
