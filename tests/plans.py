"""Checks of the commands that plan: `plan`, which writes two files, and `sample`, which writes none."""

from check import Check, Exactly, FrontOf
from streams import CUBE, FULL_REPORT, LINES, MANY_LINES, READ_FAULT, SLOW_PIPE, UNREAD_PIPE, USAGE, WRITE_FAULT
from streams import outlines, told

# A side of the one wall round a square millimetre, and the filament's cross section.
SIDE = 550
FILAMENT_AREA = 2_405_282

PROGRAM_HEAD = b"""; scadslice
G21
G90
M82
M107
M140 S60
M104 S200
M190 S60
M109 S200
G28
G92 E0
"""
OUTLINES_HEAD = outlines(1).partition(b"$$LAYER/")[0]

# Outputs of before, longer than what is written.
KEPT = {"m.scad": CUBE, "o.cli": b"kept\n" * 999, "o.gcode": b"kept\n" * 999}
QUICK = b"layer_height = 1000\nwalls = 1\ninfill_spacing = 0\n"


def amount(sides, thick=200):
    """The filament for so many sides in layers as thick as said, in millimetres."""
    units = 100 * sides * SIDE * 450 * thick // FILAMENT_AREA
    return f"{units // 100_000}.{units % 100_000:05}"


def printed(layers, thick=200):
    """The printing program of a square millimetre in so many layers: one wall each, and no infill."""
    corners = ("0.775", "0.225"), ("0.775", "0.775"), ("0.225", "0.775"), ("0.225", "0.225")
    lines, sides = [], 0
    for layer in range(layers):
        z = thick * (layer + 1)
        lines += [f"; layer {layer}", f"G1 Z{z // 1000}.{z % 1000:03} F7200", "G1 X0.225 Y0.225 F7200"]
        for x, y in corners:
            sides += 1
            lines.append(f"G1 X{x} Y{y} E{amount(sides, thick)} F1800")
    return PROGRAM_HEAD + "\n".join([*lines, "M104 S0", "M140 S0", "M84", ""]).encode()


def report(layers, thick=200):
    sides = 4 * layers
    return f"done: {layers} layers, {layers} loops, {sides} moves, E {amount(sides, thick)}\n".encode()


DONE = report(5)
WRITTEN = {"o.cli": outlines(1), "o.gcode": printed(5)}


def plan_checks():
    return [*done(), *options(), *outputs(), *reports(), *cut_short(), *samples()]


def planned(name, status=0, report=DONE, model=b"m.scad", cli=b"o.cli", gcode=b"o.gcode", left=WRITTEN,
            options=(), **more):
    """A check of the words `plan`, model and both outputs over the files of before, unless `more` says else."""
    expected = lambda it: it if hasattr(it, "difference") else Exactly(it)
    left = {file: expected(it) for file, it in left.items()}
    given = {"words": [b"plan", model, cli, gcode, *options], "given": KEPT, **more}
    return Check(f"plan_{name}", status=status, report=report, left=left, **given)


def done():
    none, stdin = {}, b"/dev/stdin"
    lines = {"m.scad": b'echo(1); cube(1); echo("b");'}
    return [
        planned("done", given={"m.scad": CUBE}),
        planned("replaces_both_outputs"),
        planned("with_lines", report=told([b"1", b'"b"'], DONE), given=lines),
        planned(
            "of_names_with_a_blank_and_letters",
            model=b"my m.scad",
            cli="ö.cli".encode(),
            gcode="ä ö.gcode".encode(),
            given={"my m.scad": CUBE},
            left={"ö.cli": outlines(1), "ä ö.gcode": printed(5)},
        ),
        planned(
            "of_names_in_folders",
            model=b"parts/m.scad",
            cli=b"written/o.cli",
            gcode=b"./parts/../written/o.gcode",
            folders=["parts", "written"],
            given={"parts/m.scad": CUBE},
            left={"written/o.cli": outlines(1), "written/o.gcode": printed(5)},
        ),
        planned("of_a_source_from_a_pipe", model=stdin, given=none, input=CUBE),
        planned("of_a_source_from_a_slow_pipe", model=stdin, given=none, shell=SLOW_PIPE),
        planned("reads_no_standard_input", input=b"cube(2);"),
        planned("with_standard_input_closed", shell='exec "$@" <&-'),
        planned("with_standard_error_closed", shell='exec "$@" 2>&-'),
        planned("of_outlines_that_nothing_keeps", cli=b"/dev/null", left={"o.gcode": printed(5)}),
        planned("of_a_program_that_nothing_keeps", gcode=b"/dev/null", left={"o.cli": outlines(1)}),
        planned("of_a_source_of_nothing", report=report(0), given={"m.scad": b""},
                left={"o.cli": outlines(0), "o.gcode": printed(0)}),
    ]


def options():
    """Settings from a pipe, and from a file that is as long as one likes."""
    thick = {"left": {"o.cli": outlines(1, 1, 1000), "o.gcode": printed(1, 1000)}, "report": report(1, 1000)}
    long = {**KEPT, "s.toml": b"#" * 5_000_000 + b"\n" + QUICK}
    return [
        planned("with_settings_from_a_pipe", options=[b"--settings", b"/dev/stdin"], input=QUICK, **thick),
        planned("with_long_settings", options=[b"--settings=s.toml"], given=long, **thick),
        planned("with_settings_that_are_a_folder", 4, READ_FAULT, options=[b"--settings", b"parts"], folders=["parts"],
                left={}),
    ]


def outputs():
    """The outlines are created first, and get their head first."""
    fault = lambda name, left, **more: planned(name, 5, WRITE_FAULT, left=left, folders=["written"], **more)
    bad = {"in_a_missing_folder": b"no/o", "that_is_a_folder": b"written", "without_a_name": b""}
    lines = {**KEPT, "m.scad": MANY_LINES + CUBE}
    return [
        *(fault(f"of_outlines_{name}", {}, cli=it) for name, it in bad.items()),
        *(fault(f"of_a_program_{name}", {"o.cli": b""}, gcode=it) for name, it in bad.items()),
        fault("of_outlines_on_a_full_device", {"o.gcode": b""}, cli=b"/dev/full"),
        fault("of_a_program_on_a_full_device", {"o.cli": OUTLINES_HEAD}, gcode=b"/dev/full"),
        fault("by_64_workers_on_a_full_device", {"o.cli": OUTLINES_HEAD}, gcode=b"/dev/full",
              options=[b"--workers=64"]),
        fault("of_outlines_and_a_program_in_a_missing_folder", {}, cli=b"no/o.cli", gcode=b"no/o.gcode"),
        planned("behind_lines_into_a_missing_folder", 5, told(LINES, WRITE_FAULT), gcode=b"no/o", given=lines,
                left={"o.cli": b""}),
    ]


def reports():
    shells = {
        "on_a_full_device": FULL_REPORT,
        "for_reading_only": 'exec "$@" 1</dev/null',
        "into_a_pipe_that_nobody_reads": UNREAD_PIPE,
        "that_is_closed": 'exec "$@" >&-',
    }
    lines = {**KEPT, "m.scad": MANY_LINES + CUBE}
    return [
        *(planned(f"with_a_report_{name}", 5, b"", shell=shell) for name, shell in shells.items()),
        *(planned(f"with_lines_{name}", 5, b"", shell=shell, given=lines, left={}) for name, shell in shells.items()),
        planned("with_all_on_a_full_device", 5, b"", cli=b"/dev/full", shell=FULL_REPORT, left={"o.gcode": b""}),
        planned("usage_on_a_full_device", 5, b"", words=[b"plan"], shell=FULL_REPORT, left={}),
    ]


def cut_short():
    """Files past a limit on their size end within a layer, and the other file before the next one."""
    # (the limit doesn't hold for the report, which goes into a pipe)
    limited = {
        "given": {"m.scad": b"cube([1,1,100]);"},
        "left": {"o.cli": FrontOf(outlines(1, 500)), "o.gcode": FrontOf(printed(500))},
        "shell": """trap '' XFSZ; ulimit -f 8; exec "$@" """,
    }
    return [
        planned("past_a_limit_on_files", 5, WRITE_FAULT, **limited),
        planned("past_a_limit_on_files_by_3_workers", 5, WRITE_FAULT, options=[b"--workers", b"3"], **limited),
    ]


def samples():
    """Only such as end before the plan: whole samples are golden cases."""
    return [
        Check("sample_usage_on_a_full_device", words=[b"sample"], status=5, report=b"", shell=FULL_REPORT),
        Check("sample_usage_with_names", words=[b"sample", b"7", b"o.cli", b"o.gcode"], status=2, report=USAGE),
    ]
