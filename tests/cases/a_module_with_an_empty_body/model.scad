module m() ;
m();