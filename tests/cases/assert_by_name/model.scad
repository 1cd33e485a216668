assert(text = "a", test = true);
assert(test = false);