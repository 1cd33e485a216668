
projection(1);