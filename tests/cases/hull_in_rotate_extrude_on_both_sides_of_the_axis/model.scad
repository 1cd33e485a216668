rotate_extrude($fn=4) 
  hull() { translate([2, 0]) square(1); translate([-4, 0]) square(1); }