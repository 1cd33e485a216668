function len(x) = "mine";
echo(len([1]));