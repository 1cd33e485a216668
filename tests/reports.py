"""Checks of the commands that only report, `check` and `tree`: statuses, streams, lines of `echo`."""

from check import FrontOf
from streams import CUBE, FULL_REPORT, LINES, MANY_LINES, READ_FAULT, SLOW_PIPE, SOURCE_LIMIT, SOURCE_LONG
from streams import UNREAD_PIPE, USAGE, MemoryCheck, of_bytes, refused, told

# What each command tells of the cube.
TOLD = {"check": b"ok: 1 leaves, 12 triangles, 5 layers\n", "tree": b"leaf 0: 12 triangles\n"}
EMPTY = b"ok: 0 leaves, 0 triangles, 0 layers\n"
STDIN = b"/dev/stdin"


def report_checks():
    of_both = (well, badly, usage, read, write)
    return [it for command in TOLD for checks in of_both for it in checks(command)] + long() + memory()


def asked(command, name, status, report, model=b"m.scad", source=None, **more):
    """A check of a command and a model; all files stay as they were, and no other is there."""
    given = {} if source is None else {"given": {"m.scad": source}}
    return refused(f"{command}_{name}", status, report,
                   **{"words": [command.encode(), model], **given, **more})


def well(command):
    done = lambda name, **more: asked(command, name, 0, TOLD[command], **more)
    letters = "mö m.scad".encode()
    lines = told([b"1", b'"b"'], TOLD[command])
    return [
        done("done"),
        done("of_a_name_with_a_blank_and_letters", model=letters, given={letters.decode(): CUBE}),
        done("in_a_folder", model=b"./parts/../parts/m.scad", folders=["parts"],
             given={"parts/m.scad": CUBE}),
        done("of_a_pipe", model=STDIN, input=CUBE),
        done("of_a_slow_pipe", model=STDIN, shell=SLOW_PIPE),
        done("reads_no_standard_input", input=b"cube(2);"),
        done("with_standard_input_closed", shell='exec "$@" <&-'),
        done("with_standard_error_closed", shell='exec "$@" 2>&-'),
        asked(command, "with_lines", 0, lines, source=b'echo(1); cube(1); echo("b");'),
    ]


def badly(command):
    lines = told([b"1", b"2"], b"fault 8 ZeroDivisor at 1:25\n")
    source = b"echo(1); echo(2); echo(3/0); echo(4);"
    never = b"echo(1); module m() m(); m();"
    depth = told([b"1"], b"budget 3 Depth at 1:21\n")
    return [
        asked(command, "of_a_fault", 1, b"fault 2 Syntax at 1:6\n", source=b"cube("),
        asked(command, "of_a_fault_behind_lines", 1, lines, source=source),
        asked(command, "of_a_budget_behind_lines", 6, depth, source=never),
        asked(command, "of_a_long_source", 6, SOURCE_LONG, given=of_bytes(SOURCE_LIMIT + 1)),
        asked(command, "of_a_source_without_end", 6, SOURCE_LONG, model=b"/dev/zero"),
    ]


def usage(command):
    name = command.encode()
    faulty = {
        "alone": [name],
        "with_two_names": [name, b"m.scad", b"o.cli"],
        "with_two_equal_names": [name, b"m.scad", b"m.scad"],
        "with_an_empty_third_word": [name, b"m.scad", b""],
        "with_four_words": [name, b"m.scad", b"o.cli", b"o.gcode"],
        "behind_its_name": [b"m.scad", name],
        "in_capitals": [name.upper(), b"m.scad"],
        "with_a_letter_more": [name + b"s", b"m.scad"],
        "of_a_name_that_is_not_utf8": [name, b"m\xc3.scad"],
    }
    return [asked(command, f"usage_{which}", 2, USAGE, words=words) for which, words in faulty.items()]


def read(command):
    models = {
        "missing": b"other.scad",
        "without_a_name": b"",
        "that_is_a_folder": b"parts",
        "below_a_file": b"m.scad/m.scad",
        "in_a_missing_folder": b"other/m.scad",
    }
    return [asked(command, f"of_a_model_{which}", 4, READ_FAULT, model=model, folders=["parts"])
            for which, model in models.items()]


def write(command):
    shells = {
        "on_a_full_device": FULL_REPORT,
        "for_reading_only": 'exec "$@" 1</dev/null',
        "into_a_pipe_that_nobody_reads": UNREAD_PIPE,
        "that_is_closed": 'exec "$@" >&-',
    }
    sources = {"": CUBE, "lines_": MANY_LINES, "a_fault_": b"cube("}
    none = [asked(command, f"{what}{which}", 5, b"", source=source, shell=shell)
            for which, shell in shells.items() for what, source in sources.items()]
    # (the limit on the size of files doesn't hold for what a shell's own pipe takes)
    room = """trap '' XFSZ; ulimit -f 8; exec "$@" >report"""
    some = {"report": FrontOf(told(LINES))}
    return [
        *none,
        asked(command, "read_fault_on_a_full_device", 5, b"", model=b"other.scad", shell=FULL_REPORT),
        asked(command, "usage_on_a_full_device", 5, b"", words=[command.encode()], shell=FULL_REPORT),
        asked(command, "lines_past_a_limit_on_files", 5, b"", source=MANY_LINES, shell=room, left=some),
    ]


def filled(piece):
    """The piece again and again, as often as a source has room for it."""
    return piece * (SOURCE_LIMIT // len(piece))


def long():
    check = lambda name, status, report, source: asked("check", name, status, report, source=source)
    return [
        asked("check", "of_a_source_at_its_limit", 0, TOLD["check"], given=of_bytes(SOURCE_LIMIT)),
        check("of_a_comment_at_the_limit", 0, EMPTY, b"//" + b"/" * (SOURCE_LIMIT - 2)),
        check("of_nothing_but_semicolons", 0, EMPTY, filled(b";")),
        check("of_as_many_assignments_as_there_is_room_for", 0, EMPTY, filled(b"a=1;")),
        check("of_more_cubes_than_may_be_made", 6, b"budget 4 Leaves at 1:32769\n", CUBE * 20000),
    ]


def memory():
    """A list of more elements than there is room for, and as few steps as it may take."""
    elements = {"m.scad": b"echo(1); echo(len([for (i = [1:1600000]) i]));"}
    name = "check_of_{}_that_memory_cannot_hold".format
    short = lambda status=0, report=TOLD["check"], **more: asked("check", "", status, report, **more)
    return [
        MemoryCheck(name("a_source"), of_bytes(SOURCE_LIMIT), short),
        MemoryCheck(name("a_list"), elements, short, told([b"1"])),
    ]
