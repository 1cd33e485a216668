echo("a", x=[1,2.5], [0:2]); echo([for(i=[1:5]) if(i%2==1) i*i else 0]); echo(cos(60), sin(30), cos(0.5));
