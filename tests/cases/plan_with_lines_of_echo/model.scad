echo("walls", 2); w = 3; echo(w=w, [w:5]); cube([w,w,0.4]); echo(undef);
