linear_extrude(height=0.4) polygon([[0,0],[12,0],[12,5],[5,5],[5,11],[0,11]]);
