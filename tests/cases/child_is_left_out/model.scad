
child(1);