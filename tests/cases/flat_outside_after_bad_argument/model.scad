square("a");
