linear_extrude(1) circle(4,$fa=1,$fs=3);
