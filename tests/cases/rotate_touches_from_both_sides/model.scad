rotate_extrude($fn=6) { polygon([[0,0],[4,0],[0,4]]); translate([-3,0]) square([3,2]); }
