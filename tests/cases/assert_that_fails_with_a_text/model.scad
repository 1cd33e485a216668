
  assert(0, "too small");