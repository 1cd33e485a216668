"""Checks of the calls that a run makes on files: which it opens, in what order, and what it reads and writes at once.

No contract counts calls (`docs/promises.md`). They are seen by `strace`; where that isn't there or may watch
nothing, none of these checks is made, and a line says so.
"""

import os
import re
import subprocess

from cases import FOLDER, content
from check import Check, Exactly, compared, run
from plans import DONE as PLANNED
from plans import KEPT, WRITTEN, printed
from streams import DONE, READ_FAULT, SOURCE_LIMIT, SOURCE_LONG, USAGE, WRITE_FAULT, outlines, told
from verdicts import FILE_LIMIT, FILE_LONG

SETTINGS = b"layer_height = 200\n"
SOURCE = b'echo(1); cube(1); echo("b");'
LINES = told([b"1", b'"b"'])
FAULT = b"echo(1); cube("
GIVEN = {**KEPT, "m.scad": SOURCE, "s.toml": SETTINGS}
PLAN = [b"plan", b"m.scad", b"o.cli", b"o.gcode"]
VERIFY = [b"verify", b"o.cli", b"o.gcode"]
BY_SETTINGS = [b"--settings", b"s.toml"]
# A golden case that ends soon.
SAMPLE = os.path.join(FOLDER, "sample_1_with_settings_by_several_workers")

TRACE = "calls"
WATCHED = f'exec strace -f -qq -e trace=%file,%desc,%network -o {TRACE} -- "$@"'
# A call with its answer, and the two lines of one that another thread's call came between.
WHOLE = re.compile(r"(\d+) +(\w+)\((.*)\) += (-?\d+)")
FIRST = re.compile(r"(\d+) +(.*) <unfinished \.\.\.>")
SECOND = re.compile(r"(\d+) +<\.\.\. \w+ resumed>(.*)")
# What the loader and the C library open for themselves, and calls that look at a file and change no byte of it.
OF_SYSTEM = ("/etc/", "/lib", "/usr/", "/proc/", "/sys/")
LOOKS = {"fstat", "newfstatat", "statx", "close", "fcntl"}
OF_NO_FILE = {"execve", "mmap", "access", "readlink", "getcwd"}


def call_checks():
    if not can_watch():
        print("not tried: the calls of a run, since no strace can watch here")
        return []
    return [*done(), *refused(), *failed()]


def can_watch():
    """Whether `strace` is there and may watch a program."""
    try:
        return subprocess.run(["strace", "-o", os.devnull, "true"], capture_output=True).returncode == 0
    except OSError:
        return False


def opened(name, text):
    """An input is opened once and read to its end once."""
    return [("open", name), ("read", name, len(text)), ("end", name)]


def written(name, text):
    return [("write", name, len(text))] if text else []


def pieces(text, mark, end):
    """A file's head, its layers and its end: a write each."""
    head, *layers = re.split(rb"(?m)(?=^%s)" % mark, text)
    last, found, rest = layers[-1].partition(end)
    return [head, *layers[:-1], last, found + rest]


def in_turn(of_outlines, of_program):
    """Each piece of the outlines goes before the same piece of the printing program."""
    names = ("o.cli", "o.gcode")
    return [("write", name, len(it)) for both in zip(of_outlines, of_program) for name, it in zip(names, both)]


CLI = pieces(outlines(1), rb"\$\$LAYER/", b"$$GEOMETRYEND")
GCODE = pieces(printed(5), b"; layer", b"M104 S0")
INPUTS = [*opened("s.toml", SETTINGS), *opened("m.scad", SOURCE)]


class Calls:
    """A check of a run and, in order, of all that it does to files."""

    def __init__(self, name, words, events, redirected="", **more):
        self.events = events
        given = {"given": GIVEN, "status": 0, **more}
        given["left"] = {file: Exactly(it) for file, it in given.get("left", {}).items()}
        self.name = f"calls_of_{name}"
        self.check = Check(self.name, words, shell=f"{WATCHED} {redirected}", **given)

    def tried(self, program):
        outcome = run(self.check, program)
        found = events_of(outcome.left.pop(TRACE, b"").decode())
        same = next((at for at, it in enumerate(zip(found, self.events)) if it[0] != it[1]), None)
        told = compared(self.check, outcome)
        if same is not None:
            told.append(f"call {same + 1} is {found[same]}, not {self.events[same]}")
        elif len(found) != len(self.events):
            told.append(f"there are {len(found)} calls, not {len(self.events)}")
        return told


def calls_in(trace):
    """Each call with its words and its answer, in the order in which they ended."""
    waiting = {}
    for line in trace.splitlines():
        if begun := FIRST.fullmatch(line):
            waiting[begun[1]] = begun[2]
        elif ended := SECOND.fullmatch(line):
            line = f"{ended[1]} {waiting.pop(ended[1], '')}{ended[2]}"
        if call := WHOLE.match(line):
            yield call[2], call[3], int(call[4])


def events_of(trace):
    """What was done to files that the loader didn't open: a word, a name, and of reads and writes the bytes. Reads
    that follow one another are one."""
    names, events = {0: "standard input", 1: "report", 2: "standard error"}, []
    for call, words, answer in calls_in(trace):
        if call == "openat":
            path = re.search(r'"(.*?)"', words)[1]
            if not path.startswith(OF_SYSTEM):
                events.append(("create" if "O_CREAT" in words else "open", path))
            names[answer] = None if path.startswith(OF_SYSTEM) else path
        elif call not in OF_NO_FILE | LOOKS:
            event_of(call, names.get(int_of(words), words), answer, events)
    return events


def event_of(call, name, answer, events):
    """Adds what a call did to the file of this name, or nothing where the name is of the system."""
    if name is None or (call == "ftruncate" and events[-1:] == [("create", name)]):
        return
    before = events[-1] if events else ()
    if call == "read" and answer == 0:
        events.append(("end", name))
    elif call == "read" and before[:2] == ("read", name):
        events[-1] = ("read", name, before[2] + answer)
    else:
        events.append((call, name, answer))


def int_of(words):
    found = re.match(r"\d+", words)
    return int(found[0]) if found else None


def done():
    """Each command opens, reads, creates and writes in its order; the number of workers changes nothing."""
    lines, created = written("report", LINES), [("create", "o.cli"), ("create", "o.gcode")]
    whole = [*INPUTS, *lines, *created, *in_turn(CLI, GCODE), *written("report", PLANNED)]
    slices = [*INPUTS, *lines, created[0], *(("write", "o.cli", len(it)) for it in CLI), *written("report", DONE)]
    plan = lambda name, *more: Calls(name, [*PLAN, *BY_SETTINGS, *more], whole, report=LINES + PLANNED, left=WRITTEN)
    reads = lambda command, report: Calls(command, [command.encode(), b"m.scad", *BY_SETTINGS],
                                          [*INPUTS, *lines, *written("report", report)], report=LINES + report)
    sample, report = (content(os.path.join(SAMPLE, it)) for it in ("settings.toml", "report"))
    return [
        plan("plan"),
        plan("plan_by_3_workers", b"--workers", b"3"),
        Calls("sample", [b"sample", b"1", *BY_SETTINGS], [*opened("s.toml", sample), *written("report", report)],
              given={**GIVEN, "s.toml": sample}, report=report),
        Calls("slice", [b"slice", b"m.scad", b"o.cli", *BY_SETTINGS], slices, report=LINES + DONE,
              left={"o.cli": outlines(1)}),
        reads("check", b"ok: 1 leaves, 12 triangles, 5 layers\n"),
        reads("tree", b"leaf 0: 12 triangles\n"),
        judged("verify", [*VERIFY, *BY_SETTINGS], 0, b"inside: 5 layers, 20 moves\n", opened("s.toml", SETTINGS)),
        judged("verify_with_workers", [*VERIFY, b"--workers=3"], 0, b"inside: 5 layers, 20 moves\n"),
    ]


def judged(name, words, status, report, before=(), **changed):
    """Both files are read to their ends before one of them is judged; none is created."""
    given = {**GIVEN, **WRITTEN, **{file.replace("_", "."): it for file, it in changed.items()}}
    events = [*before, *opened("o.cli", given["o.cli"]), *opened("o.gcode", given["o.gcode"]), *written("report", report)]
    return Calls(name, words, events, status=status, report=report, given=given)


def refused():
    """What is refused opens nothing behind its cause, and nothing is read that isn't wanted."""
    ends = lambda name, words, status, report, events, **more: Calls(
        name, words, [*events, *(("write", "report", len(it)) for it in report)], status=status,
        report=b"".join(report), **more)
    bad = {**GIVEN, "s.toml": b"walls = 0\n"}
    return [
        ends("faulty_words", [b"plan", b"m.scad"], 2, [USAGE], []),
        ends("refused_settings", [*PLAN, *BY_SETTINGS], 3, [b"settings 4 OutOfRange walls 0\n"],
             opened("s.toml", bad["s.toml"]), given=bad),
        ends("a_fault", PLAN, 1, [b"fault 2 Syntax at 1:15\n"], opened("m.scad", FAULT),
             given={**GIVEN, "m.scad": FAULT}),
        ends("a_source_without_end", [b"check", b"/dev/zero"], 6, [SOURCE_LONG],
             [("open", "/dev/zero"), ("read", "/dev/zero", SOURCE_LIMIT + 1)]),
        ends("a_model_that_is_not_there", [b"plan", b"n.scad", *PLAN[2:]], 4, [READ_FAULT], [("open", "n.scad")]),
        ends("settings_that_are_not_there", [*PLAN, b"--settings=n.toml"], 4, [READ_FAULT], [("open", "n.toml")]),
        judged("bad_outlines", VERIFY, 9, b"cli 1 BadLine 1\n", o_cli=b"kept\n"),
        judged("a_bad_program", VERIFY, 9, b"gcode 1 UnknownWord 1\n", o_gcode=b"kept\n"),
        ends("outlines_that_are_not_there", [b"verify", b"n.cli", b"o.gcode"], 4, [READ_FAULT], [("open", "n.cli")]),
        ends("a_program_that_is_not_there", [*VERIFY[:2], b"n.gcode"], 4, [READ_FAULT],
             [*opened("o.cli", GIVEN["o.cli"]), ("open", "n.gcode")]),
        ends("outlines_without_end", [b"verify", b"/dev/zero", b"o.gcode"], 6, [FILE_LONG],
             [("open", "/dev/zero"), ("read", "/dev/zero", FILE_LIMIT + 1)]),
    ]


def failed():
    """No call is made on an object that has failed, but for the report's last line, and none on the other file."""
    of_model, lines = opened("m.scad", SOURCE), written("report", LINES)
    line, unwritten = written("report", WRITE_FAULT), [("write", "report", -1)]
    fault = lambda name, words, events, **more: Calls(
        name, words, events, status=5, **{"report": LINES + WRITE_FAULT, **more})
    full_report = {"report": b"", "redirected": ">/dev/full"}
    full = [b"/dev/full"]
    both = [("create", "o.cli"), ("create", "/dev/full")]
    return [
        fault("outlines_in_a_missing_folder", [*PLAN[:2], b"no/o", PLAN[3]],
              [*of_model, *lines, ("create", "no/o"), *line]),
        fault("a_program_in_a_missing_folder", [*PLAN[:3], b"no/o"],
              [*of_model, *lines, ("create", "o.cli"), ("create", "no/o"), *line], left={"o.cli": b""}),
        fault("a_program_on_a_full_device", PLAN[:3] + full,
              [*of_model, *lines, *both, ("write", "o.cli", len(CLI[0])), ("write", "/dev/full", -1), *line],
              left={"o.cli": CLI[0]}),
        fault("a_report_on_a_full_device", PLAN, [*of_model, *unwritten], **full_report),
        fault("usage_on_a_full_device", PLAN[:2], unwritten, **full_report),
    ]
