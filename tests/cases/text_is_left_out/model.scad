
text(1);