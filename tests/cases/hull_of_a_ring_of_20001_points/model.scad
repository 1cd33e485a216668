rotate_extrude($fn=3)
  hull() polygon([for(i=[0:20000]) [i % 100, floor(i / 100)]]);