function pow(a, b) = b == 0 ? 1 : a * pow(a, b - 1);
echo(pow(2, 10));