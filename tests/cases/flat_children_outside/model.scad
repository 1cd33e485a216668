module m() children(); m() square(1);
