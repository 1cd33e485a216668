; Behind `G92 E0` of the program: a line of filament along the edge, and the fan.
G1 Z0.300 F1200
G1 X5.000 Y5.000 F7200
G1 X100.000 Y5.000 E6.00000 F1200
G1 Z2.000 F1200
G92 E0
M106 S128
