rotate_extrude($fn=6) polygon([[1,0],[4,0],[1,2]]);
