cube(1); @
