linear_extrude(1) polygon([[0,0],[1,"0"],[0,1]]);
