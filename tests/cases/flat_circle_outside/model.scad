circle(1);
