(a program of a mill)
G21
