linear_extrude(height=0.4) polygon([[0,0],[8,0],[8,6],[6,6],[6,2],[2,2],[2,6],[0,6]]);
