linear_extrude(height=0.4) polygon([[0,0],[9,0.4],[9,1.2]]);
