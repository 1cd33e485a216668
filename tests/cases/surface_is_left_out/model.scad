
surface(1);