"""Two files that are judged: the move that doesn't stay inside, or the line that isn't of the form."""

import os
import re
from decimal import Decimal
from itertools import islice

from look import is_regular, shown
from settings import value_of
from table import BAD_FILES, BUDGETS, OTHER_COMMANDS, STATUSES, STILL_COMMANDS

OUTSIDE = re.compile(rb"outside: move (\d+) line (\d+)")
BAD_FILE = re.compile(rb"(cli|gcode) (\d) (\w+) (\d+)(?: (\d+))?")
FILE_LONG = re.compile(rb"budget (12) (FileLong)")
CHAPTER = "docs/formats.md, \"Two files that are judged\""

# The columns of a line that are shown, the lines through which a move is looked for, and the bytes of a file.
WIDTH, LINES, LIMIT = 100, 2_000_000, 268_435_456
HEAD = ["$$HEADERSTART", "$$ASCII", "$$UNITS/0.001", "$$VERSION/200", "$$LAYERS/N", "$$HEADEREND", "$$GEOMETRYSTART"]
END = b"$$GEOMETRYEND"
WORD = re.compile(rb"([XYZE])(-?\d+(?:\.\d+)?)?")


# A move outside

def of_outside(last, job):
    """Lines on the first move that doesn't stay inside."""
    number, line = map(int, last.groups())
    program, outlines = job.names["GCODE"], job.names["CLI"]
    told = [f"{shown(program)}:{line}: Outside", *row_shown(program, line)]
    told.append(f"extruding move {number} of the program doesn't stay inside the outlines of its layer by the clearance")
    if row_of(program, line - 2) == b"; supports":
        return [*told, "it is the first move of a support: supports stand outside of the outlines, so a program with some is "
                       "judged up to here", CHAPTER]
    ends = ends_of(program, line)
    return [*told, *(why_outside(*ends, outlines, job.settings) if ends else []), CHAPTER]


def why_outside(start, end, outlines, settings):
    """What can be seen of a move that doesn't stay inside."""
    plane = lambda place: f"({place['X']:.3f}, {place['Y']:.3f})"
    if start["Z"] != end["Z"]:
        return [f"it goes from z = {start['Z']:.3f} mm to {end['Z']:.3f}, and an extruding move has to keep its height"]
    told = [f"it goes from {plane(start)} to {plane(end)} at z = {end['Z']:.3f} mm"]
    heights = heights_of(outlines)
    if heights is not None and end["Z"] * 1000 not in heights:
        return [*told, f"`{shown(outlines)}` has no layer at this height{nearest(heights, end['Z'])}: the files are of "
                       "two parts, or of two layer heights"]
    width = value_of(settings, "line_width")
    said = f" = {width}, {width / 2000:.4f} mm" if width else ""
    return [*told, f"it leaves the outlines, or comes nearer to one than half of `line_width`{said}, less some micrometres",
            "are these the outlines of the program, in the same place, and is `line_width` (--settings FILE) the width of "
            "its lines?"]


def nearest(heights, z):
    """The heights next to one that isn't there, for a message."""
    below = max((it for it in heights if it < z * 1000), default=None)
    above = min((it for it in heights if it > z * 1000), default=None)
    told = [f"{it / 1000:.3f}" for it in (below, above) if it is not None]
    return f" (the next are {' and '.join(told)} mm)" if told else ", and no other"


def heights_of(name):
    """The heights of the layers of a file of outlines in micrometres, or None where it can't be read."""
    if not is_regular(name):
        return None
    with open(name, "rb") as file:
        return {int(found[1]) for row in file if (found := re.match(rb"\$\$LAYER/(\d{1,10})\r?$", row))}


def ends_of(name, number):
    """Where the move of a line starts and ends, in millimetres, or None where that can't be told soon. No line before it
    is refused, for that would be told in its place."""
    if not is_regular(name) or number > LINES:
        return None
    before = after = dict.fromkeys("XYZE", b"0")
    with open(name, "rb") as file:
        for row in islice(file, number):
            before, after = after, placed(after, row.partition(b";")[0].split())
    decimal = lambda place: {axis: Decimal(it.decode()) for axis, it in place.items()}
    return decimal(before), decimal(after)


def placed(place, words):
    """The place after the words of a line."""
    if not words or words[0] not in (b"G0", b"G1", b"G28", b"G92"):
        return place
    named = {found[1].decode(): found[2] or b"0" for it in words[1:] if (found := WORD.fullmatch(it))}
    if not named and words[0] in (b"G28", b"G92"):
        named = dict.fromkeys("XYZ" if words[0] == b"G28" else "XYZE", b"0")
    return place | named


# A file that isn't of the form

def of_bad_file(last, job):
    """Lines on the first line of a file that isn't of the form."""
    what, number, kind, first, second = last.groups()
    name = job.names[what.decode().upper()]
    is_count = second is not None
    line = line_of_count(name, int(first), int(second)) if is_count else int(first)
    told = [f"{shown(name)}{f':{line}' if line else ''}: {kind.decode()}", *row_shown(name, line)]
    if is_count:
        hint = f": said is {int(first)}, there are {int(second)}"
    else:
        hint = (why_no_outlines if what == b"cli" else why_no_command)(name, line)
    _, means = BAD_FILES.get(f"{what.decode()} {int(number)}", ("", "this version of the launcher doesn't know it"))
    return [*told, means + hint, CHAPTER]


def row_of(name, line):
    """The bytes of a line of a file that can be read again, without its end, or None."""
    if not line or not is_regular(name):
        return None
    with open(name, "rb") as file:
        row = next(islice(file, line - 1, None), None)
    return None if row is None else row.removesuffix(b"\n").removesuffix(b"\r")


def row_shown(name, line):
    row = row_of(name, line)
    return [] if row is None else [f"{line:>5} | {shown(row.decode('utf-8', 'replace'))[:WIDTH]}".rstrip()]


def line_of_count(name, said, there):
    """The first line of a file of outlines that says one number where another one is there, from 1, or 0."""
    if not is_regular(name):
        return 0
    head = 0
    with open(name, "rb") as file:
        for at, row in enumerate(file, 1):
            command, _, rest = row.partition(b"/")
            place = {b"$$POLYLINE": 2, b"$$HATCHES": 1}.get(command)
            if command == b"$$LAYERS":
                head = at
            elif place and rest.split(b",", place + 1)[place:place + 1] == [b"%d" % said]:
                if (rest.count(b",") - place) // (2 if place == 2 else 4) == there:
                    return at
    return head


def why_no_outlines(name, line):
    """What can be seen of a line that isn't one of outlines."""
    row, before = row_of(name, line), row_of(name, line - 1)
    if line <= len(HEAD):
        return f": line {line} has to be `{HEAD[line - 1]}`"
    if not is_regular(name):
        return ""
    if row is None:
        return f": the file ends before `{END.decode()}`"
    if before == END:
        return f": nothing may stand behind `{END.decode()}`"
    if row.startswith(b"//"):
        return ": comments aren't read"
    if b"." in row:
        return ": numbers are whole, and coordinates whole micrometres"
    return ": heights are whole and ascend" if row.startswith(b"$$LAYER/") else ""


def why_no_command(name, line):
    """What can be seen of a line that isn't one of the printing program."""
    row = row_of(name, line) or b""
    words = row.partition(b";")[0].split()
    command = words[0].decode("utf-8", "replace") if words else ""
    if b"\t" in row.partition(b";")[0]:
        return ": words are parted by spaces alone"
    if command in OTHER_COMMANDS:
        return f": `{command}`: {OTHER_COMMANDS[command]}"
    if command in STILL_COMMANDS:
        return f": `{command}` moves nothing, so its lines may be taken out"
    return ""


# Files that are too long, and others that can't be explained

def of_budget(_last, job):
    """A line on a file that is too long."""
    name, limit, helps = BUDGETS[12]
    long = [it for it in job.names.values() if is_regular(it) and os.path.getsize(it) > LIMIT]
    said = f": `{shown(long[0])}`" if long else ""
    return [f"scadslice: {name}: {limit}{said}", f"what helps: {helps}", "docs/formats.md, \"The report\""]


FORMS = {6: (FILE_LONG, of_budget), 8: (OUTSIDE, of_outside), 9: (BAD_FILE, of_bad_file)}


def told_of(status, lines, job):
    """Lines on how judging two files ended, by the first of these last lines of a report that says it."""
    form, tell = FORMS[status]
    last = next((found for line in lines if line and (found := form.fullmatch(line))), None)
    return tell(last, job) if last else [f"scadslice: {STATUSES[status][1]}"]
