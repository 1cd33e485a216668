# Puts start.gcode and end.gcode round the layers of a printing program:
# awk -v at=examples -f examples/wrap.awk PART.gcode >READY.gcode
function put(name, line) { while ((getline line < (at "/" name)) > 0) print line }
/^M104 S0$/ { put("end.gcode") }
{ print }
/^G92 E0$/ { put("start.gcode") }
