for (i = [1:2]) ;
echo(i);