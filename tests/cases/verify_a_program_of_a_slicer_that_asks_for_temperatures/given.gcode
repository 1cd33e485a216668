;FLAVOR:Marlin
;TIME:78
;Filament used: 0.0123456m
;Layer height: 0.2
;MINX:1
M140 S60
M105
M190 S60
M104 S200
M105
M109 S200
M82 ;absolute extrusion mode
G28 ;Home
G92 E0 ;Reset Extruder
G1 Z2.0 F3000 ;Move Z Axis up
G1 X10.1 Y20 Z0.28 F5000.0 ;Move to start position
G1 X10.1 Y200.0 Z0.28 F1500.0 E15 ;Draw the first line
G92 E0
;LAYER_COUNT:1
;LAYER:0
M107
G1 F2400 E-5
;MESH:part.stl
G0 F6000 X1 Y5 Z0.2
;TYPE:WALL-OUTER
G1 F2400 E0
G1 F1200 X9 Y5 E0.26609
;TIME_ELAPSED:1.2
G1 F2400 E-4.73391
M140 S0
M83 ;relative extrusion mode
M104 S0
;End of Gcode
