# Makes the amounts of a printing program relative, each that of its own move (M83 in place of M82):
# LC_ALL=C awk -f examples/relative.awk PART.gcode >RELATIVE.gcode
/^M82$/ { print "M83"; next }
/^G92 .*E/ { before = 0 }
/^G1 / && match($0, / E-?[0-9.]+/) {
    amount = substr($0, RSTART + 2, RLENGTH - 2)
    printf "%s E%.5f%s\n", substr($0, 1, RSTART - 1), amount - before, substr($0, RSTART + RLENGTH)
    before = amount
    next
}
{ print }
