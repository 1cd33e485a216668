cube(1);
 @