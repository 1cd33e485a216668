mirror([1,0,0]) linear_extrude(height=0.4) polygon([[0,0],[6,0],[6,2],[2,2],[2,5],[0,5]]);
