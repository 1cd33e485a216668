linear_extrude(1) polygon([[0,0],[4,0],[4,3]],[0:2]);
