# Makes comments of the lines of another tool's printing program that move nothing, so that the program can be judged, and all
# lines keep their numbers: awk -f examples/still.awk PART.gcode >JUDGED.gcode
BEGIN {
    split("G4 M17 M18 M73 M105 M110 M115 M117 M118 M141 M191 M201 M203 M204 M205 M220 M221 M300 M400 M420 M572 M862.3 M900", names)
    for (i in names) is_still[names[i]] = 1
}
{ command = $1; sub(/\r$/, "", command) }
is_still[command] { $0 = "; " $0 }
{ print }
