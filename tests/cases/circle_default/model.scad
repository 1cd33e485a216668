linear_extrude(1) circle($fn=8);
