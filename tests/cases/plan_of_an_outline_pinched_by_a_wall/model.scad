linear_extrude(height=0.4) polygon([[0,0],[4,2],[8,0],[8,5],[4,3],[0,5]]);
