rotate_extrude($fn=6) polygon([[0,0],[4,0],[0,4]]);
