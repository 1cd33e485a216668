
offset(1);