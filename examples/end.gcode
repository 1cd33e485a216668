; Before the heaters go off: filament back, the nozzle up and the bed to the front.
M107
G92 E0
G1 E-2.00000 F2400
G91
G1 Z10 F1200
G90
G1 X0 Y200 F7200
