"""Checks of `slice`, its exit statuses and the streams: standard output, standard error and the files.

Status 3, refused settings, is brought about by golden cases.
"""

import shlex

from check import Check, Exactly, FrontOf, compared, run

CUBE = b"cube(1);"
SOURCE_LIMIT = 4_194_304
DONE = b"done: 5 layers, 5 loops\n"
USAGE = b"usage: scadslice COMMAND\n"
READ_FAULT = b"read fault\n"
WRITE_FAULT = b"write fault\n"
SOURCE_LONG = b"budget 1 SourceLong\n"
OUT_OF_MEMORY = b"out of memory\n"

LINES = [b"%d" % number for number in range(1, 2001)]
MANY_LINES = b"for (i = [1:2000]) echo(i);"

# A source, and an output of before that must stay where none is created.
KEPT = {"m.scad": CUBE, "o.cli": b"kept\n"}
FULL_REPORT = 'exec "$@" >/dev/full'
SLOW_PIPE = """{ printf cu; sleep 0.2; printf 'be(1);'; sleep 0.2; echo; } | "$@" """
# The program starts once the pipe's other end is closed, also in the shell that made the pipe.
UNREAD_PIPE = """
    { until ! (trap '' PIPE; printf . 2>/dev/null); do sleep 0.01; done; "$@"; echo $? >status; } | { exec <&-; >closed; }
    answer=$(cat status); rm closed status; exit "$answer" """


def told(lines, last=b""):
    """A report: lines of `echo` with these texts, and the last line."""
    return b"".join(b"ECHO: %s\n" % it for it in lines) + last


def outlines(size, layers=None, thick=200):
    """The outlines of a cube of so many millimetres, or of another number of layers as thick as said."""
    layers, side = layers or 5 * size, 1000 * size
    square = f"$$POLYLINE/1,1,5,0,0,{side},0,{side},{side},0,{side},0,0"
    lines = ["$$HEADERSTART", "$$ASCII", "$$UNITS/0.001", "$$VERSION/200", f"$$LAYERS/{layers}"]
    lines += ["$$HEADEREND", "$$GEOMETRYSTART"]
    for layer in range(1, layers + 1):
        lines += [f"$$LAYER/{thick * layer}", square]
    return "\n".join([*lines, "$$GEOMETRYEND", ""]).encode()


WRITTEN = {"o.cli": outlines(1)}


# The longest names that the system has, of a file and of a way to one, and the next longer ones.
LONGEST = b"n" * 255
FARTHEST = b"./" * 2046 + b"far"
TOO_FAR = b"./" * 2046 + b"/far"


def stream_checks():
    return [*done(), *names(), *source(), *usage(), *read(), *write(), *long(), memory()]


def sliced(name, status=0, report=DONE, model=b"m.scad", cli=b"o.cli", left=WRITTEN, **more):
    """A check of the words `slice`, model and outlines over a file `m.scad`, unless `more` says else."""
    expected = lambda it: it if hasattr(it, "difference") else Exactly(it)
    given = {"words": [b"slice", model, cli], "given": {"m.scad": CUBE}, **more}
    left = {file: expected(it) for file, it in left.items()}
    return Check(name, status=status, report=report, left=left, **given)


def refused(name, status, report, **more):
    """A check after which the files stand as they were."""
    return sliced(name, status, report, **{"left": {}, "given": KEPT, **more})


def done():
    none, stdin = {}, b"/dev/stdin"
    return [
        sliced("done"),
        sliced("an_output_that_is_there_is_replaced", given={"m.scad": CUBE, "o.cli": outlines(2)}),
        sliced(
            "names_with_a_blank_and_letters",
            model=b"my m.scad",
            cli="ö.cli".encode(),
            given={"my m.scad": CUBE},
            left={"ö.cli": outlines(1)},
        ),
        sliced(
            "names_in_folders",
            model=b"parts/m.scad",
            cli=b"./parts/../written/o.cli",
            folders=["parts", "written"],
            given={"parts/m.scad": CUBE},
            left={"written/o.cli": outlines(1)},
        ),
        sliced("a_source_from_a_pipe", model=stdin, given=none, input=CUBE),
        sliced("a_source_from_a_slow_pipe", model=stdin, given=none, shell=SLOW_PIPE),
        sliced("standard_input_is_not_read", input=b"cube(2);"),
        sliced("standard_input_is_closed", shell='exec "$@" <&-'),
        sliced("standard_error_is_closed", shell='exec "$@" 2>&-'),
        sliced("an_output_that_keeps_nothing", cli=b"/dev/null", left=none),
    ]


def names():
    """The system sets the length of names: a longer one is a fault of its object."""
    read = lambda name, status, model, **more: sliced(f"a_model_of_{name}", status, model=model, **more)
    write = lambda name, status, cli, **more: sliced(f"an_output_of_{name}", status, cli=cli, **more)
    no_read, no_write = {"report": READ_FAULT, "left": {}}, {"report": WRITE_FAULT, "left": {}}
    at = {LONGEST.decode(): CUBE, "far": CUBE}
    return [
        read("the_longest_name", 0, LONGEST, given=at),
        read("a_name_that_is_too_long", 4, LONGEST + b"n", **no_read),
        read("the_farthest_name", 0, FARTHEST, given=at),
        read("a_name_that_is_too_far", 4, TOO_FAR, given=at, **no_read),
        read("a_very_long_name", 4, b"n" * 100_000, **no_read),
        write("the_longest_name", 0, LONGEST, left={LONGEST.decode(): outlines(1)}),
        write("a_name_that_is_too_long", 5, LONGEST + b"n", **no_write),
        write("the_farthest_name", 0, FARTHEST, left={"far": outlines(1)}),
        write("a_name_that_is_too_far", 5, TOO_FAR, **no_write),
        write("a_very_long_name", 5, b"n" * 100_000, **no_write),
    ]


def source():
    of = lambda source: {"m.scad": source, "o.cli": b"kept\n"}
    lines = told([b"1", b"2"], b"fault 8 ZeroDivisor at 1:25\n")
    depth = told([b"1"], b"budget 3 Depth at 1:21\n")
    edges = told([b"1"], b"budget 7 LayerEdges layer 1 count 20002\n")
    # The first layer is a cube's, and the second has an edge more than it may.
    wide = b"echo(1); cube([1,1,0.2]); translate([0,0,0.2]) cylinder(h=0.2,r=50,$fn=10001);"
    first = outlines(1).replace(b"LAYERS/5", b"LAYERS/2").partition(b"$$LAYER/400")[0]
    return [
        sliced("a_source_with_lines", 0, told([b"1", b'"b"'], DONE), given=of(b'echo(1); cube(1); echo("b");')),
        sliced("a_source_of_nothing", 0, b"done: 0 layers, 0 loops\n", given=of(b""), left={"o.cli": outlines(0)}),
        refused("a_source_of_a_fault", 1, b"fault 2 Syntax at 1:6\n", given=of(b"cube(")),
        refused("a_source_of_a_fault_behind_lines", 1, lines,
                given=of(b"echo(1); echo(2); echo(3/0); echo(4);")),
        refused("a_source_of_a_budget_behind_lines", 6, depth, given=of(b"echo(1); module m() m(); m();")),
        sliced("a_layer_past_a_budget", 6, edges, given=of(wide), left={"o.cli": first}),
    ]


def usage():
    three = [b"slice", b"m.scad", b"o.cli"]
    faulty = {
        "no_word": [],
        "one_word": three[:1],
        "two_words": three[:2],
        "a_fourth_word": [*three, b"more"],
        "a_fourth_word_that_is_empty": [*three, b""],
        "a_fourth_word_that_is_not_utf8": [*three, b"\xff"],
        "an_unknown_command": [b"draw", *three[1:]],
        "a_command_in_capitals": [b"SLICE", *three[1:]],
        "an_empty_command": [b"", *three[1:]],
        "a_command_that_is_not_utf8": [b"slice\xff", *three[1:]],
        "equal_names": [b"slice", b"m.scad", b"m.scad"],
        "a_model_name_that_is_not_utf8": [b"slice", b"m\xc3.scad", b"o.cli"],
        "an_output_name_that_is_not_utf8": [b"slice", b"m.scad", b"\xff.cli"],
        "help": [b"--help"],
        "version": [b"--version"],
    }
    return [refused(f"usage_{name}", 2, USAGE, words=words) for name, words in faulty.items()]


def read():
    models = {
        "missing": b"other.scad",
        "without_a_name": b"",
        "a_folder": b"parts",
        "below_a_file": b"m.scad/m.scad",
        "in_a_missing_folder": b"other/m.scad",
    }
    in_order, full = "a_missing_model_and_a_missing_folder", "a_read_fault_on_a_full_device"
    return [
        *(refused(f"a_model_{name}", 4, READ_FAULT, model=model, folders=["parts"])
          for name, model in models.items()),
        refused(in_order, 4, READ_FAULT, model=b"other.scad", cli=b"no/o.cli"),
        refused(full, 5, b"", model=b"other.scad", shell=FULL_REPORT),
    ]


def write():
    outputs = {
        "on_a_full_device": b"/dev/full",
        "in_a_missing_folder": b"no/o.cli",
        "that_is_a_folder": b"written",
        "without_a_name": b"",
    }
    reports = {
        "on_a_full_device": FULL_REPORT,
        "for_reading_only": 'exec "$@" 1</dev/null',
        "into_a_pipe_that_nobody_reads": UNREAD_PIPE,
        "that_is_closed": 'exec "$@" >&-',
    }
    lines = {"m.scad": MANY_LINES + CUBE, "o.cli": b"kept\n"}
    # (the limit on the size of files doesn't hold for the report, which goes into a pipe)
    limited = {
        "given": {"m.scad": b"cube(100);"},
        "left": {"o.cli": FrontOf(outlines(100))},
        "shell": """trap '' XFSZ; ulimit -f 8; exec "$@" """,
    }
    return [
        *(refused(f"an_output_{name}", 5, WRITE_FAULT, cli=cli, folders=["written"])
          for name, cli in outputs.items()),
        refused("an_output_behind_lines_on_a_full_device", 5, told(LINES, WRITE_FAULT), cli=b"/dev/full", given=lines),
        *(sliced(f"a_report_{name}", 5, b"", shell=shell) for name, shell in reports.items()),
        *(refused(f"lines_{name}", 5, b"", given=lines, shell=shell) for name, shell in reports.items()),
        sliced("outlines_past_a_limit_on_files", 5, WRITE_FAULT, **limited),
        refused("both_outputs_on_a_full_device", 5, b"", cli=b"/dev/full", shell=FULL_REPORT),
        refused("usage_on_a_full_device", 5, b"", words=[], shell=FULL_REPORT),
    ]


def of_bytes(length):
    """A cube whose source has so many bytes."""
    return {"m.scad": CUBE + b"\n" * (length - len(CUBE)), "o.cli": b"kept\n"}


def long():
    return [
        sliced("a_source_at_its_limit", given=of_bytes(SOURCE_LIMIT)),
        refused("a_source_past_its_limit", 6, SOURCE_LONG, given=of_bytes(SOURCE_LIMIT + 1)),
        refused("a_source_without_end", 6, SOURCE_LONG, model=b"/dev/zero"),
    ]


def memory():
    asked = lambda **more: sliced("", **more)
    return MemoryCheck("a_source_that_memory_cannot_hold", of_bytes(SOURCE_LIMIT), asked)


class MemoryCheck:
    """With a little more memory than a short source takes, a long one runs out of it.

    `asked` makes a check of a short source, or of the files given. Some of the `lines` may stand
    before the last line.
    """

    def __init__(self, name, given, asked, lines=b""):
        self.name, self.given, self.asked, self.lines = name, given, asked, lines

    def tried(self, program):
        under = lambda limit: f'ulimit -v {limit} && exec "$@" 2>/dev/null'
        short = lambda limit: self.asked(shell=under(limit))
        is_done = lambda limit: not compared(short(limit), run(short(limit), program))
        least = next(filter(is_done, range(1024, 65537, 512)), None)
        if least is None:
            return ["a short source isn't done in 64 MiB"]
        long_one = self.asked(status=7, report=OUT_OF_MEMORY, given=self.given, left={},
                              shell=under(least + 1024))
        outcome = run(long_one, program)
        lines = outcome.report.removesuffix(OUT_OF_MEMORY)
        if lines and self.lines.startswith(lines):
            long_one.report = lines + OUT_OF_MEMORY
        return compared(long_one, outcome)


def launcher_checks(launcher):
    """The launcher hands on words, streams and status of a program that is newer than its sources.

    It doesn't find `rt` on this path, and so never builds here.
    """
    start = f"shift; export PATH=/usr/bin:/bin SCADSLICE_QUIET=1; exec {shlex.quote(launcher)}"
    by = lambda redirected="": f'{start} "$@" {redirected}'
    more = [b"slice", b"m.scad", b"o.cli"]
    return [
        sliced("the_launcher_runs_the_program", shell=by()),
        refused("the_launcher_hands_on_all_words", 2, USAGE, words=[*more, b""], shell=by()),
        refused("the_launcher_hands_on_any_bytes", 2, USAGE, words=[*more, b"\xff"], shell=by()),
        sliced("the_launcher_with_a_full_device", 5, b"", shell=by(">/dev/full")),
        sliced("the_launcher_opens_closed_streams", 5, b"", shell=by("<&- >&-")),
    ]
