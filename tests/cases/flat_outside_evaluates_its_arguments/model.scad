square(1/0);
