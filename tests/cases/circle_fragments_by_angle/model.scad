linear_extrude(1) circle(40,$fa=30,$fs=0.1);
