
resize(1);