square(1);
