// nothing
/* nor
 here */ 	
;;{;}
