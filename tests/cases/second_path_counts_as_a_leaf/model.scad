linear_extrude(1) for(i=[1:2048]) polygon([[0,0],[1,0],[0,1]],[[0,1,2],[0,1,2]]); linear_extrude(1) square(1);
