// 
function f1(p2) = [19740 - 6,PI%-1][1.9];
linear_extrude(height=0.27) {hull(){mirror([0,0,1]) polygon([[0.5520,0.719],[-1,0.1911],[1.2781,-1.7707]]);}}
rotate_extrude($fn=5) polygon([[0,0],[1.8,0],[0.3+abs(min(6.844, PI, 5))%2,1.27],[0,0.607]]);
