module m(){m();} m();
