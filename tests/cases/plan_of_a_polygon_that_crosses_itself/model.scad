linear_extrude(height=0.4) polygon([[0,0],[8,6],[8,0],[0,6]]);
