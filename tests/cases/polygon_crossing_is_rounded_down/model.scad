linear_extrude(height=0.2) union(){polygon([[0,0],[2,0],[2,2]]); polygon([[0,0],[2.001,0],[0,2.001]]);}
