"""Checks of `verify`, which judges a printing program by outlines and writes no file.

`verdicts/` has what must come of files that are made here, a line each, by a plain program that shares nothing with this one:

    changes    CASE LINE OLD NEW STATUS REPORT: of what `plan` writes for a golden case, one word of a line of the printing
               program is another one, a coordinate that is 1, 2, 10 or 1000 micrometres greater or less
    cuts       FILE LINES STATUS REPORT: of two files, one ends after so many lines; with `-` behind their number
               without the last one's end
    outlines   LINE TEXT STATUS REPORT: of outlines with this text, as escapes have it, in place of the line of this number,
               or with `+` behind it
    lines      LINE BOX PROBE STATUS REPORT: of a line of a printing program, behind one that sets the place to 1, 2 and 3 mm and
               the amount to 4, and before one that shows where it led, for lines of 100 micrometres. The outlines are a box: its
               height, and its least and its greatest corner
    pairs      NUMBER STATUS REPORT: of the pair of files of `pairs.py` with this number
    moves      NUMBER STATUS REPORT: of its outlines that cross, and a single move, with this number; of half of them it is inside
"""

import os
import sys

from cases import FOLDER, TESTS, content, lines_of
from check import Check, Each, run
from pairs import move_pair, pair
from streams import FULL_REPORT, READ_FAULT, UNREAD_PIPE, USAGE, MemoryCheck

sys.path.insert(0, os.path.join(os.path.dirname(TESTS), "explain"))

from words import job_of  # noqa: E402 (it lies in the launcher's folder)

NAMES = ("given.cli", "given.gcode")
WORDS = [b"verify", *map(str.encode, NAMES)]
# The case of which both files are cut, and the pairs of a check.
CUT, PAIRS_EACH = "plan_of_children_by_number", 24
# Outlines of two layers, the lower one with two loops.
OUTLINES = ["$$HEADERSTART", "$$ASCII", "$$UNITS/0.001", "$$VERSION/200", "$$LAYERS/2", "$$HEADEREND", "$$GEOMETRYSTART",
            "$$LAYER/200", "$$POLYLINE/1,1,5,0,0,1000,0,1000,1000,0,1000,0,0", "$$POLYLINE/1,0,4,10,10,20,20,20,10,10,10",
            "$$LAYER/400", "$$POLYLINE/1,1,4,-5,-5,5,-5,0,5,-5,-5", "$$GEOMETRYEND"]
FILE_LIMIT = 268_435_456
FILE_LONG = b"budget 12 FileLong\n"


def verdict_checks():
    return [*of_plans(), *cuts(), other_outlines(), lines_of_programs(), *by_dice(), *streams(), *names(), *long(), memory()]


def judged(name, files, status=0, report=b"", settings=None, words=WORDS, **more):
    """A check of `verify` over outlines and a printing program; they stay, and no other file is there."""
    given = dict(zip(NAMES, files)) | ({"settings.toml": settings} if settings is not None else {})
    options = [b"--settings", b"settings.toml"] if settings is not None else []
    return Check(f"verify_{name}", [*words, *options], status, report, **{"given": given, **more})


def rows_of(table, width, folder="verdicts"):
    """The rows of a table: so many words, the status, and the report."""
    with open(os.path.join(TESTS, folder, table), encoding="utf-8") as file:
        for line in file:
            *words, status, report = line.rstrip("\n").split(" ", width + 1)
            yield words, int(status), report.encode() + b"\n"


# What `plan` writes

class OfPlan:
    """What `plan` writes for a golden case is inside by the same settings, or outside at its first support; and what becomes
    of it with changes."""

    def __init__(self, case, job, changes):
        self.name, self.case, self.changes = f"verdict_of_{case}", case, changes
        self.outputs = job.names["CLI"], job.names["GCODE"]
        self.has_settings = job.settings is not None

    def tried(self, program):
        case = os.path.join(FOLDER, self.case)
        there = lambda name: {name: content(f"{case}/{name}")} if os.path.exists(f"{case}/{name}") else {}
        given = there("model.scad") | there("settings.toml")
        planned = run(Check(self.name, lines_of(content(f"{case}/words")), given=given), program)
        *_, done = planned.report.removesuffix(b"\n").split(b"\n")
        wanted = content(f"{case}/report").removesuffix(b"\n").rpartition(b"\n")[2]
        if done != wanted or not all(it in planned.left for it in self.outputs):
            return [f"it isn't planned: {planned.status}, {done!r}"]
        outlines, text = (planned.left[it] for it in self.outputs)
        settings = given["settings.toml"] if self.has_settings else None
        layers, _, moves, *_ = done.removeprefix(b"done: ").split(b", ")
        status, report = outside_by_supports(text) or (0, b"inside: %s, %s\n" % (layers, moves))
        checks = {"as it is": judged("", (outlines, text), status, report, settings)}
        for (line, old, new), status, report in self.changes:
            checks[f"line {line}, {new}"] = judged("", (outlines, changed(text, line, old, new)), status, report, settings)
        return Each(self.name, checks).tried(program)


def outside_by_supports(text):
    """The verdict on a program with supports: outside at the first move along one, behind the travel to it."""
    lines = text.split(b"\n")
    if b"; supports" not in lines:
        return None
    at = lines.index(b"; supports")
    before = sum(it.startswith(b"G1 ") and b" E" in it for it in lines[:at])
    return 8, b"outside: move %d line %d\n" % (before + 1, at + 3)


def changed(text, line, old, new):
    """A text in which one word of a line is another one."""
    lines = text.split(b"\n")
    words = lines[int(line) - 1].split(b" ")
    if words.count(old.encode()) != 1:
        raise OSError(f"line {line} of the program hasn't one word {old}")
    words[words.index(old.encode())] = new.encode()
    return b"\n".join([*lines[:int(line) - 1], b" ".join(words), *lines[int(line):]])


def of_plans():
    """Each golden case of `plan` that ends well, with its changes."""
    changes, checks = {}, []
    for (case, *change), status, report in rows_of("changes", 4):
        changes.setdefault(case, []).append((change, status, report))
    for case in sorted(os.listdir(FOLDER)):
        words = [it.decode("utf-8", "surrogateescape") for it in lines_of(content(f"{FOLDER}/{case}/words"))]
        if words[:1] == ["plan"] and not os.path.exists(f"{FOLDER}/{case}/status"):
            checks.append(OfPlan(case, job_of(words), changes.pop(case, [])))
    if changes:
        raise ValueError(f"verdicts/changes has no golden case {', '.join(changes)}")
    return checks


# Files that are made here

def cuts():
    """Both files of a case, each cut behind each of its lines."""
    case = os.path.join(FOLDER, CUT)
    whole = {it: content(f"{case}/{it}") for it in ("outlines.cli", "print.gcode")}
    checks = {name: {} for name in whole}
    for (name, lines), status, report in rows_of("cuts", 2):
        text = b"".join(whole[name].splitlines(keepends=True)[:int(lines.rstrip("-"))])
        files = {**whole, name: text.removesuffix(b"\n") if lines.endswith("-") else text}
        checks[name][lines] = judged("", files.values(), status, report, content(f"{case}/settings.toml"))
    return [Each(f"verify_{name.replace('.', '_')}_cut_at_each_line", it) for name, it in checks.items()]


def other_outlines():
    """Outlines in which one line is another one, or more lines, or none."""
    checks = {}
    for (number, text), status, report in rows_of("outlines", 2):
        lines = [f"{it}\n".encode() for it in OUTLINES]
        at = int(number.rstrip("+"))
        lines[at - ("+" not in number):at] = [told(text)]
        checks[f"line {number} {text}"] = judged("", (b"".join(lines), b""), status, report)
    return Each("verify_outlines_of_other_lines", checks)


def told(text):
    """The bytes of a text with escapes, of which those of one byte stand for it."""
    told = text.encode().decode("unicode_escape")
    try:
        return told.encode("latin-1")
    except UnicodeEncodeError:
        return told.encode()


def lines_of_programs():
    """A line of a program: whether it is of the form, and where it leaves the head and the amount."""
    checks = {}
    for (line, box, probe), status, report in rows_of("lines", 3):
        program = b"G92 X1 Y2 Z3 E4\n%s\n%s\n" % (told(line), told(probe))
        checks[f"{line} before {probe}"] = judged("", (outlines_of(box), program), status, report, b"line_width = 100\n")
    return Each("verify_lines_of_a_program", checks)


def outlines_of(box):
    z, left, low, right, high = box.split(",")
    loop = f"$$POLYLINE/1,1,5,{left},{low},{right},{low},{right},{high},{left},{high},{left},{low}"
    lines = [*OUTLINES[:4], "$$LAYERS/1", *OUTLINES[5:7], f"$$LAYER/{z}", loop, OUTLINES[-1]]
    return "".join(f"{it}\n" for it in lines).encode()


def by_dice():
    """Pairs of files by chance, some of them in each check."""
    return [*random_pairs("pairs", pair), *random_pairs("moves", move_pair)]


def random_pairs(table, made):
    rows, checks = list(rows_of(table, 1)), []
    for start in range(0, len(rows), PAIRS_EACH):
        some = {}
        for (number,), status, report in rows[start:start + PAIRS_EACH]:
            *files, width = made(int(number))
            some[f"pair {number}"] = judged("", files, status, report, b"line_width = %d\n" % width)
        checks.append(Each(f"verify_{table}_from_{start + 1}", some))
    return checks


# Streams, names and limits

def files():
    """A pair that is inside: outlines without layers, and a program that extrudes nothing."""
    head = b"$$HEADERSTART\n$$ASCII\n$$UNITS/0.001\n$$VERSION/200\n$$LAYERS/0\n$$HEADEREND\n$$GEOMETRYSTART\n"
    return head + b"$$GEOMETRYEND\n", b"G28\nG1 X5\n"


INSIDE = b"inside: 0 layers, 0 moves\n"
OUTSIDE = b"G1 X5 E1\n"


def streams():
    """The report alone is written: where it can't be, the status is 5, whatever it would have been."""
    shells = {
        "on_a_full_device": FULL_REPORT,
        "for_reading_only": 'exec "$@" 1</dev/null',
        "into_a_pipe_that_nobody_reads": UNREAD_PIPE,
        "that_is_closed": 'exec "$@" >&-',
    }
    outlines, program = files()
    ends = {"": program, "of_a_move_outside_": OUTSIDE, "of_a_bad_line_": b"G5\n"}
    none = [judged(f"with_a_report_{which}{how}", (outlines, it), 5, shell=shell)
            for how, shell in shells.items() for which, it in ends.items()]
    return [
        *none,
        judged("usage_on_a_full_device", (), 5, words=[b"verify"], shell=FULL_REPORT),
        judged("read_fault_on_a_full_device", (outlines,), 5, shell=FULL_REPORT),
        judged("with_standard_input_closed", files(), report=INSIDE, shell='exec "$@" <&-'),
        judged("with_standard_error_closed", files(), report=INSIDE, shell='exec "$@" 2>&-'),
        judged("reads_no_standard_input", files(), report=INSIDE, input=b"G5\n"),
        judged("of_a_program_from_a_pipe", files(), report=INSIDE, words=[*WORDS[:2], b"/dev/stdin"], input=files()[1]),
        judged("of_outlines_from_a_pipe", files(), report=INSIDE, words=[b"verify", b"/dev/stdin", WORDS[2]],
               input=outlines),
    ]


def names():
    of = lambda name, cli, gcode, status=0, report=INSIDE, given=None, **more: judged(
        name, (), status, report, words=[b"verify", cli, gcode], given=given or dict(zip(NAMES, files())), **more)
    letters = {"ö b.cli": files()[0], "parts/ä.gcode": files()[1]}
    return [
        of("of_names_with_a_blank_and_letters", "ö b.cli".encode(), "./parts/ä.gcode".encode(), given=letters,
           folders=["parts"]),
        of("of_a_name_that_is_not_utf8", b"given\xff.cli", WORDS[2], 2, USAGE),
        of("of_outlines_that_are_a_folder", b"parts", WORDS[2], 4, READ_FAULT, folders=["parts"]),
        of("of_a_program_that_is_a_folder", WORDS[1], b"parts", 4, READ_FAULT, folders=["parts"]),
        of("of_outlines_without_a_name", b"", WORDS[2], 4, READ_FAULT),
        of("of_a_program_without_a_name", WORDS[1], b"", 4, READ_FAULT),
        of("of_a_program_in_a_missing_folder", WORDS[1], b"no/given.gcode", 4, READ_FAULT),
        of("of_a_program_through_a_link", WORDS[1], b"link", shell='ln -s given.gcode link; "$@"; s=$?; rm link; exit $s'),
        of("of_nothing_but_nothing", b"/dev/null", b"/dev/./null", 9, b"cli 1 BadLine 1\n"),
        of("of_a_program_that_holds_nothing", WORDS[1], b"/dev/null"),
    ]


def long():
    """A file is read to one byte past its limit, the outlines before the program is opened."""
    of = lambda name, cli, gcode, status=6, report=FILE_LONG, **more: judged(
        name, files(), status, report, words=[b"verify", cli, gcode], **more)
    fed = lambda count: f'head -c {count} /dev/zero | "$@"'
    return [
        of("of_outlines_without_end", b"/dev/zero", b"no/given.gcode"),
        of("of_a_program_without_end", WORDS[1], b"/dev/zero"),
        of("of_a_program_without_end_behind_bad_outlines", b"/dev/null", b"/dev/zero"),
        of("of_a_program_a_byte_longer_than_the_limit", WORDS[1], b"/dev/stdin", shell=fed(FILE_LIMIT + 1)),
        of("of_a_program_as_long_as_the_limit", WORDS[1], b"/dev/stdin", 9, b"gcode 1 UnknownWord 1\n",
           shell=fed(FILE_LIMIT)),
        of("of_outlines_as_long_as_the_limit", b"/dev/stdin", WORDS[2], 9, b"cli 1 BadLine 1\n", shell=fed(FILE_LIMIT)),
    ]


def memory():
    """A program of many comments, which are no move."""
    asked = lambda status=0, report=INSIDE, **more: judged("", files(), status, report, **more)
    given = dict(zip(NAMES, (files()[0], b"; a comment\n" * 1_000_000)))
    return MemoryCheck("verify_of_a_program_that_memory_cannot_hold", given, asked)
