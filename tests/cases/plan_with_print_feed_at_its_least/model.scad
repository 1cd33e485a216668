linear_extrude(height=0.4) polygon([[0,0],[7,0],[7,2.5],[2.5,2.5],[2.5,6],[0,6]]);
