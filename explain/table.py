"""What each name means that the program answers by, and what to do about it: the one table of explanations.

`tests/map` holds it to `docs/language.md`, `docs/formats.md` and the program's own names.
"""

# The commands, each with its names and what it does.
COMMANDS = {
    "check": (["MODEL"], "tells how large the part is that the source means"),
    "tree": (["MODEL"], "shows the tree of its solids"),
    "slice": (["MODEL", "CLI"], "writes the outlines of its layers to the file CLI"),
    "plan": (["MODEL", "CLI", "GCODE"], "writes the printing program too, to the file GCODE"),
    "sample": (["N"], "plans a plate with 36 holes that the number N gives, and writes no file"),
    "verify": (["CLI", "GCODE"], "judges whether each extruding move of GCODE stays inside the outlines of CLI"),
}

# The options of every command.
OPTIONS = {
    "--settings": ("FILE", "the settings of the print, whole numbers in TOML"),
    "--workers": ("W", "how many workers share the layers, 1 to 64"),
}

# The statuses: the name, and what it means.
STATUSES = {
    0: ("Done", "what was asked for is written"),
    1: ("Source", "the source is refused; no file was written"),
    2: ("Usage", "the words of the command line can't be read"),
    3: ("Settings", "the settings are refused; no file was written"),
    4: ("Read", "a file could not be read; no file was written"),
    5: ("Write", "a file or standard output could not be written; the files are not whole"),
    6: ("Over", "a limit was passed"),
    7: ("Memory", "there was too little memory: close other programs, take fewer --workers, or split the part; "
                  "files that were begun are not whole"),
    8: ("Outside", "an extruding move doesn't stay inside the outlines of its layer by the clearance"),
    9: ("BadFile", "a file that is to be judged isn't of the form"),
}

# Signals that end the program, and why they most likely came.
SIGNALS = {
    9: ", most likely for want of memory",
    11: ", most likely for want of stack: raise it by `ulimit -s`, or let fewer calls stand in one another",
}

# The faults of a source: the name, what it means, and the chapter of docs/language.md.
FAULTS = {
    1: ("BadText", "no word, number, string or sign of the language can be read here: a string or comment that "
                   "isn't closed, a bad escape (a backslash in a string is written \\\\), or a foreign character",
        "Text"),
    2: ("Syntax", "the source can't go on with this; look just before it, most often a `;`, `)` or `}` is missing",
        "Grammar"),
    3: ("Nesting", "more than 200 constructs stand open here; a long sum counts each `+`: split it by variables, "
                   "or add up a vector by a function that halves it", "Grammar"),
    4: ("LeftOut", "this word of the manual is left out here", "What differs from the usual program"),
    5: ("UnknownModule", "no module of this name is defined here or around; one inside another module is seen only "
                         "there", "Scopes and evaluation"),
    6: ("UnknownFunction", "no function of this name is defined here or around, and a variable is no function",
        "Scopes and evaluation"),
    7: ("BadArgument", "an argument is missing, of another kind, or out of its range; `echo` it before the call",
        "Statements and modules"),
    8: ("ZeroDivisor", "the divisor of `/` or `%`, or the cosine of a `tan`, is 0: test it first, as in "
                       "`b == 0 ? 0 : a / b`", "Values"),
    9: ("NumberRange", "a number passes 1,000,000,000 in size", "Values"),
    10: ("AssertFailed", "the test of this assertion is false: the source's author asks for it",
         "Scopes and evaluation"),
    11: ("MixedDimensions", "a flat shape stands outside of every extrusion, or a solid inside one: put flat shapes "
                            "into linear_extrude or rotate_extrude, and solids beside them",
         "Statements and modules"),
    12: ("NotClosed", "a side of one face has no other face along it the other way round: give all faces, each "
                      "clockwise as seen from outside", "Solids"),
    13: ("CoordinateRange", "a corner would lie more than 1,000 mm from the origin along an axis: move or shrink "
                            "the part", "Solids"),
    14: ("ZeroStep", "a range with the step 0 never ends: give another step", "Scopes and evaluation"),
}

# The budgets: the name, the limit, and what helps.
BUDGETS = {
    1: ("SourceLong", "the source has more than 4,194,304 bytes", "split the part"),
    2: ("Steps", "evaluation takes more than 5,000,000 steps",
        "fewer turns of `for`; compute once and keep it in a variable; look for a loop that never ends"),
    3: ("Depth", "calls and expressions stand more than 100,000 deep in one another, or vectors or set operations "
                 "more than 200", "look for a call that never ends; use `for` in place of recursion; unite before "
                                  "taking away"),
    4: ("Leaves", "more than 4,096 primitives are made", "fewer, larger primitives"),
    5: ("Triangles", "the primitives have more than 200,000 triangles together",
        "a smaller `$fn`, greater `$fa` and `$fs`"),
    6: ("Layers", "the part has more than 20,000 layers", "a greater `layer_height`: 50 is enough for any part"),
    7: ("LayerEdges", "a layer's section has more than 20,000 edges, or one of its walls more than 220,000",
        "a smaller `$fn`; fewer parts at one height"),
    8: ("LayerCrossings", "more than 2,000,000 pairs of a layer's edges, or of a wall's, cross",
        "fewer parts that lie across one another; a smaller `line_width`, fewer `walls`"),
    9: ("LayerMoves", "a layer has more than 200,000 extruding moves", "a greater `infill_spacing` or `support_spacing`"),
    10: ("HullPoints", "a hull has more than 20,000 distinct points", "a smaller `$fn` of what it is round"),
    11: ("SupportRuns", "the lines of support have more than 10,000,000 stretches below higher layers",
         "a greater `support_spacing` or `layer_height`"),
    12: ("FileLong", "one of the two files has more than 268,435,456 bytes",
         "judge the parts of a plate one by one, each with its own outlines"),
}

# Why a file that is to be judged is refused, by the report's two first words: the name, and what it means.
BAD_FILES = {
    "cli 1": ("BadLine", "this line isn't of the form, or isn't in its place"),
    "cli 2": ("CountDiffers", "a number that is said isn't the number that is there"),
    "cli 3": ("OpenLoop", "an outline ends where it began, so it has four points at least, the last as the first"),
    "gcode 1": ("UnknownWord", "this command or this letter isn't read, or a letter stands twice"),
    "gcode 2": ("BadNumber", "a number isn't of the form or out of its range, or is missing behind its letter"),
}

# Commands of other tools' programs that aren't read, and what to do about them.
OTHER_COMMANDS = {
    "G2": "arcs aren't read: let the tool write straight moves, without arc fitting",
    "G10": "let the tool write retractions as moves of E",
    "G17": "arcs aren't read, so their plane isn't either: take the line out where there are none",
    "G20": "lengths are read in millimetres: let the tool write these",
    "G29": "it moves the head to level the bed: take the line out where the program homes and places the head behind it",
    "G91": "coordinates are read as absolute ones: let the tool write these",
    "M83": "amounts are read as absolute ones (`M82`): let the tool write these",
    "T0": "one tool is read: take the line out where there is no other",
}
OTHER_COMMANDS |= {"G3": OTHER_COMMANDS["G2"], "G5": OTHER_COMMANDS["G2"], "G11": OTHER_COMMANDS["G10"]}

# Commands that move nothing, so that their lines may be taken out before a program is judged.
STILL_COMMANDS = ["G4", "M17", "M18", "M73", "M105", "M110", "M115", "M117", "M118", "M141", "M191", "M201", "M203",
                  "M204", "M205", "M220", "M221", "M300", "M400", "M420", "M572", "M862.3", "M900"]

# The faults of settings: the name, and what it means.
SETTINGS_FAULTS = {
    1: ("NotToml", "the settings are no TOML in UTF-8: one `key = number` a line"),
    2: ("UnknownKey", "no setting has this name"),
    3: ("NotWhole", "a setting is one whole number, without a point, quotes or a unit"),
    4: ("OutOfRange", "the number is out of the setting's range"),
}

# The settings: the unit, the least and the greatest value, the default, and what it is.
SETTINGS = {
    "bed": ("degrees Celsius", 0, 200, 60, "the bed's temperature"),
    "filament_area": ("square micrometres", 100_000, 20_000_000, 2_405_282, "the filament's cross section"),
    "hot_end": ("degrees Celsius", 0, 500, 200, "the hot end's temperature"),
    "infill_spacing": ("micrometres", 0, 100_000, 2_000, "the distance between lines of infill, 0 for none"),
    "layer_height": ("micrometres", 20, 1_000, 200, "the height of each layer"),
    "line_width": ("micrometres", 100, 2_000, 450, "the width of an extruded line"),
    "print_feed": ("millimetres a minute", 1, 60_000, 1_800, "the feed while extruding"),
    "support_gap": ("micrometres", 0, 10_000, 300, "how far supports keep from the outlines of their layer"),
    "support_spacing": ("micrometres", 500, 100_000, 0, "the distance between lines of support, 0 for none"),
    "travel_feed": ("millimetres a minute", 1, 60_000, 7_200, "the feed of moves that don't extrude"),
    "walls": ("", 1, 10, 2, "how many walls line each outline"),
}

# The modules that take arguments, and what these may be.
MODULES = {
    "cube": "cube(size, center): size is a number or three numbers, none negative",
    "sphere": "sphere(r, d): the radius r or the diameter d is a number that isn't negative",
    "cylinder": "cylinder(h, r1, r2, center), by name also r, d, d1, d2: all are numbers, none negative",
    "polyhedron": "polyhedron(points, faces): points of three numbers each; faces of three or more whole numbers "
                  "that name points, from 0; one of each at least",
    "square": "square(size, center): size is a number or two numbers, none negative",
    "circle": "circle(r, d): the radius r or the diameter d is a number that isn't negative",
    "polygon": "polygon(points, paths): points of two numbers each; paths of three or more whole numbers that name "
               "points, from 0; without paths three points at least",
    "linear_extrude": "linear_extrude(height, center): height is a number that isn't negative; no twist, scale or v",
    "rotate_extrude": "rotate_extrude(): each shape inside stands wholly on one side of the axis x = 0; $fn, $fa "
                      "and $fs are numbers; no angle but 360",
    "translate": "translate(v): v is a vector of one to three numbers",
    "mirror": "mirror(v): v is a vector of one to three numbers",
    "scale": "scale(v): v is a number, or a vector of one to three numbers",
    "rotate": "rotate(a, v): a is a number of degrees or one to three of them; with an axis v, a vector of three "
              "numbers of which just one isn't 0, a is a number",
    "multmatrix": "multmatrix(m): m has three or four rows of four numbers",
    "for": "for (name = values, ..): each argument has a name, and there is one at least",
    "intersection_for": "intersection_for(name = values, ..): each argument has a name, and there is one at least",
    "let": "let (name = value, ..): each argument has a name",
    "assert": "assert(test, text): the test is there and isn't undef",
}

# Modules that take any arguments.
FREE_MODULES = ["color", "render", "group", "union", "difference", "intersection", "hull", "children", "echo"]

# The functions, and what their arguments may be.
FUNCTIONS = {
    "abs": "abs(x): x is a number",
    "sign": "sign(x): x is a number",
    "floor": "floor(x): x is a number",
    "ceil": "ceil(x): x is a number",
    "round": "round(x): x is a number",
    "sqrt": "sqrt(x): x is a number that isn't negative",
    "sin": "sin(x): x is a number of degrees",
    "cos": "cos(x): x is a number of degrees",
    "tan": "tan(x): x is a number of degrees",
    "min": "min(..): one or more numbers, or a vector of one or more",
    "max": "max(..): one or more numbers, or a vector of one or more",
    "len": "len(x): one argument of any kind",
    "concat": "concat(..): any arguments",
    "str": "str(..): any arguments",
    "chr": "chr(x): x is a number",
    "ord": "ord(s): s is a string",
    "norm": "norm(v): v is a vector of numbers",
    "cross": "cross(a, b): two vectors of two numbers, or two of three",
    "is_undef": "is_undef(x): one argument of any kind",
    "is_bool": "is_bool(x): one argument of any kind",
    "is_num": "is_num(x): one argument of any kind",
    "is_string": "is_string(x): one argument of any kind",
    "is_list": "is_list(x): one argument of any kind",
}

_BY_SUMS = "write it by a function of your own: + - * /, sqrt, sin and cos are there"
_BY_TABLE = "write its values into a vector"
_BY_SOLIDS = "write the shape by cubes, cylinders, extrusions and set operations"
_BY_TEXT = "put the text of that file into this one"

# What the manual has and this language leaves out, and what to write in its place.
LEFT_OUT = {
    "include": _BY_TEXT,
    "use": _BY_TEXT,
    "function": "write a named function: `function f(x) = ..;`",
    "!": "mark what is to be left away by `*`",
    "^": "write `x * x`, or a function of your own",
    "pow": "write `x * x`, or a function of your own",
    "acos": _BY_SUMS, "asin": _BY_SUMS, "atan": _BY_SUMS, "atan2": _BY_SUMS,
    "exp": _BY_SUMS, "ln": _BY_SUMS, "log": _BY_SUMS,
    "lookup": _BY_TABLE, "rands": _BY_TABLE, "search": "look through the vector by a comprehension",
    "dxf_cross": _BY_TABLE, "dxf_dim": _BY_TABLE, "fontmetrics": _BY_TABLE, "textmetrics": _BY_TABLE,
    "is_function": "there are no function values", "parent_module": "hand the name on as an argument",
    "version": "there is one version", "version_num": "there is one version",
    "assign": "write assignments into the block, or `let`",
    "child": "write `children(i)`",
    "hull": "a hull of an intersection or a difference is left out: take away from the hull, or make hulls of the parts",
    "minkowski": _BY_SOLIDS, "offset": "write the outline with its new size as a polygon",
    "projection": "write the outline as a polygon", "resize": "write `scale`",
    "import": "write the mesh as a `polyhedron`, the outline as a `polygon`",
    "surface": "write it as a `polyhedron`", "text": "write the letters as polygons",
    "linear_extrude": "twist, scale and v are left out: stack several extrusions",
    "rotate_extrude": "an angle other than 360 is left out: take the rest away by `difference`",
    "rotate": "an axis that isn't x, y or z is left out: turn about x, then y, then z by `rotate([x, y, z])`",
}
