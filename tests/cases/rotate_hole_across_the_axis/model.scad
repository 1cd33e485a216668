rotate_extrude($fn=6) difference(){ square(5); translate([-1,1]) square(2); }
