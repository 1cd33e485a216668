"""Checks of what the launcher explains on standard error, and that it changes nothing else by it.

Each check runs the program by itself, by the launcher and by the launcher with SCADSLICE_QUIET=1: the
status, standard output and the files have to be the same, and standard error has the texts of the
check, or nothing.
"""

import os
import re
import shlex
import shutil
import signal
import subprocess
import sys
import tempfile
import time

from cases import FOLDER, content, lines_of
from check import PLAIN, TIME_LIMIT, Check, Exactly, compared, run, shown

PATH = f"{os.path.dirname(sys.executable)}:/usr/bin:/bin"
CUBE = b"cube(1);"
ONE = [b"check", b"m.scad"]
SLICE = [b"slice", b"m.scad", b"o.cli"]
PLAN = [b"plan", b"m.scad", b"o.cli", b"o.gcode"]
SET = [b"--settings", b"s.toml"]
VERIFY = [b"verify", b"o.cli", b"o.gcode"]


class Explained:
    """What the launcher says of a run: `wanted` are texts of standard error in their order."""

    def __init__(self, name, status, wanted, words, launcher, source=CUBE, settings=None, shell=PLAIN, files=None):
        self.name, self.status, self.wanted = f"explained_{name}", status, wanted
        self.words, self.launcher, self.shell = words, launcher, shell
        self.given = dict(files or {}) if source is None or files else {"m.scad": source}
        self.given |= {} if settings is None else {"s.toml": settings}

    def tried(self, program):
        start = f"shift; export PATH={shlex.quote(PATH)}; set -- {shlex.quote(self.launcher)} \"$@\"; "
        plain, quiet, told = (run(self.check(shell), program) for shell in
                              (self.shell, f"{start} export SCADSLICE_QUIET=1; {self.shell}", start + self.shell))
        errors, told.errors = told.errors, b""
        same = self.check(PLAIN)
        same.report, same.left = plain.report, {name: Exactly(it) for name, it in plain.left.items()}
        found = [f"{how}: {why}" for how, outcome in
                 (("the program", plain), ("quiet", quiet), ("explained", told))
                 for why in compared(same, outcome)]
        return found + self.lacking(errors)

    def check(self, shell):
        return Check(self.name, self.words, self.status, given=self.given, folders=["a folder"], shell=shell)

    def lacking(self, errors):
        """The texts that standard error lacks, from the first on."""
        if not self.wanted and errors:
            return [f"standard error has {shown(errors)}"]
        at = 0
        for text in map(str.encode, self.wanted):
            at = errors.find(text, at)
            if at < 0:
                return [f"standard error lacks {shown(text)}: {shown(errors, 600)}"]
            at += len(text)
        return []


def explained_checks(launcher):
    told = lambda name, status, wanted, words, **more: Explained(name, status, wanted, words, launcher, **more)
    checks = [usage, faults, budgets, refused_settings, unread, unwritten, warned, outside, bad_outlines, bad_programs]
    workshops = [WithoutProgram, Building, Rebuilding, Builders, NotBuilt, KilledCheck, Signals]
    others = [WordsOfCases(), *(workshop(launcher) for workshop in workshops)]
    return [it for of in checks for it in of(told)] + others


def usage(told):
    commands = [f"scadslice {it} " for it in ("check MODEL", "tree MODEL", "slice MODEL CLI", "plan MODEL CLI GCODE")]
    lists = [*commands, "scadslice sample N", "scadslice verify CLI GCODE ", "--settings FILE", "--workers W"]
    nearest = {
        "no_word": (["no command is given", *lists], []),
        "help": (lists, [b"--help"]),
        "help_by_one_dash": (lists, [b"-h"]),
        "help_of_a_command": (lists, [b"plan", b"--help"]),
        "a_misspelt_command": (["no command `chekc`; the nearest is `check`", *lists], [b"chekc", b"m.scad"]),
        "a_misspelt_option": (["no option `--setings`; the nearest is `--settings`"],
                              [*ONE, b"--setings", b"s.toml"]),
        "a_name_too_few": (["`plan` takes MODEL, CLI and GCODE; given is `m.scad`, `o.cli`"], PLAN[:3]),
        "a_name_too_many": (["`check` takes MODEL; given is `m.scad`, `o.cli`"], [*ONE, b"o.cli"]),
        "a_name_twice": (["CLI and GCODE are both `o.cli`, and would overwrite"], [*PLAN[:3], b"o.cli"]),
        "one_name_of_two_files": (["CLI and GCODE are both `o.cli`, and have to be two"], [*VERIFY[:2], b"o.cli"]),
        "a_name_too_few_to_judge": (["`verify` takes CLI and GCODE; given is `o.cli`"], VERIFY[:2]),
        "a_name_that_is_no_utf8": (["isn't UTF-8"], [b"check", b"\xff.scad"]),
        "workers_past_their_greatest": (["workers is 1 to 64, not `65`"], [*ONE, b"--workers=65"]),
        "a_number_of_a_sample": (["N is a whole number below 2147483648"], [b"sample", b"x"]),
    }
    return [told(name, 2, wanted, words) for name, (wanted, words) in nearest.items()]


def faults(told):
    """Of each fault a source, and texts that standard error has."""
    of = {
        "a_foreign_character": (b"cube(1);\n  sphere(\xc3\xa42);", ["m.scad:2:10: BadText", "Text"]),
        "an_open_brace": (b"module a() {\n cube(1);\n", ["m.scad:3:1: Syntax", "1 `{`", "Grammar"]),
        "a_missing_semicolon": (b"x = 3\ncube(x);", ["m.scad:2:1: Syntax", "    1 | x = 3", "    2 | cube(x);\n",
                                                     "      | ^^^^\n", "`;`"]),
        "a_long_sum": (b"x = 1" + b"+(1" * 100 + b")" * 100 + b";", ["Nesting", "200 constructs", "Grammar"]),
        "a_power": (b"echo(1);\n\techo(pow(2, 3));", ["m.scad:2:7: LeftOut pow", "\t     ^^^\n", "`x * x`",
                                                       "What differs from the usual program"]),
        "a_slanted_axis": (b"rotate(9, [1, 1, 0]) cube(1);", ["LeftOut rotate", "`rotate`: an axis that isn't x"]),
        "a_misspelt_module": (b"cyllinder(3);", ["UnknownModule cyllinder", "^^^^^^^^^\n", "nearest is `cylinder`"]),
        "a_misspelt_module_of_the_source": (b"module ring() cube(1); rnig();", ["nearest is `ring`"]),
        "a_module_that_is_a_function": (b"function f() = 1; f();", ["`f` is a function"]),
        "a_module_inside_another": (b"module a() { module b() cube(1); } b();", ["defined inside another one"]),
        "a_misspelt_function": (b"echo(sqr(2));", ["UnknownFunction sqr", "nearest is `sqrt`"]),
        "an_argument": (b"translate([0, 0, 1]) cube(\"a\");", ["m.scad:1:22: BadArgument cube", "^^^^\n",
                                                               "a number or three numbers", "Statements and modules"]),
        "an_argument_of_a_function": (b"x = norm(3);", ["m.scad:1:5: BadArgument norm", "v is a vector of numbers",
                                                        "Functions"]),
        "a_division": (b"// \xc3\xa4\nx = 1 / 0;", ["m.scad:2:7: ZeroDivisor", "    2 | x = 1 / 0;\n", "^\n", "is 0"]),
        "a_number_past_the_range": (b"x = 1000000000 * 2;", ["NumberRange", "1,000,000,000", "Values"]),
        "an_assertion": (b"w = 1;\nassert(w > 2,\n  \"too thin\"\n);", ["m.scad:2:1: AssertFailed", "assert(w > 2,",
                                                                       "too thin", "is false"]),
        "a_flat_shape": (b"square(1);", ["MixedDimensions", "linear_extrude"]),
        "an_open_surface": (b"polyhedron([[0,0,0],[1,0,0],[0,1,0]], [[0,1,2]]);", ["NotClosed", "clockwise"]),
        "a_part_too_wide": (b"cube(1000.001);", ["CoordinateRange", "1,000 mm"]),
        "a_step_of_nought": (b"for (i = [0 : 0 : 3]) cube(i);", ["m.scad:1:10: ZeroStep", "another step"]),
    }
    checks = [told(name, 1, wanted, ONE, source=source) for name, (source, wanted) in of.items()]
    pipe, file = 'cat m.scad | "$@"', '"$@" >report'
    return checks + [
        told("a_source_from_a_pipe", 1, ["the source is refused"], [b"check", b"/dev/stdin"], source=b"cube(",
             shell=pipe),
        told("a_report_in_a_file", 1, ["m.scad:1:6: Syntax"], ONE, source=b"cube(", shell=file),
        told("a_fault_before_files_are_made", 1, ["BadArgument cube"], PLAN, source=b'cube("a");'),
    ]


def budgets(told):
    deep, many = b"module m() m();\nm();", b"for (i = [1:5000]) cube(1);"
    wide = b"cube([1,1,0.2]); translate([0,0,0.2]) cylinder(h=0.2,r=50,$fn=10001);"
    thin = b"layer_height = 20\n"
    edges = ["LayerEdges: ", "here 20,002, in layer 1, 0.300 mm", "what helps"]
    return [
        told("depth", 6, ["m.scad:1:12: Depth", "           ^\n", "100,000 deep", "what helps: "], ONE, source=deep),
        told("leaves", 6, ["m.scad:1:20: Leaves", "4,096 primitives"], ONE, source=many),
        told("triangles", 6, ["Triangles", "200,000", "`$fn`"], ONE, source=b"sphere(9, $fn = 1000);"),
        told("a_long_source", 6, ["SourceLong", "4,194,304 bytes"], ONE, source=b" " * 4_194_305),
        told("layers", 6, ["Layers", "here 50,000", "layer_height"], [*ONE, *SET], source=b"cube([1,1,1000]);",
             settings=thin),
        told("edges", 6, edges, SLICE, source=wide),
        told("edges_with_a_report_in_a_file", 6, edges, PLAN, source=wide, shell='"$@" >report'),
        told("edges_of_a_source_from_a_pipe", 6, ["names the limit", "LayerEdges", "LayerMoves"],
             [b"slice", b"/dev/stdin", b"o.cli"], source=wide, shell='cat m.scad | "$@"'),
    ]


def refused_settings(told):
    of = {
        "no_toml": (b"bed = 60\nwalls = \n", ["s.toml:2: NotToml", "    2 | walls ="]),
        "no_utf8": (b"bed = 60\n# \xff\n", ["s.toml:2: NotToml", "isn't UTF-8"]),
        "a_misspelt_key": (b"\nwals = 3\n", ["s.toml:2: UnknownKey wals", "nearest is `walls`"]),
        "a_broken_number": (b"layer_height = 0.2\n", ["s.toml:1: NotWhole layer_height", "0.2 mm is 200"]),
        "no_number": (b"line_width = \"wide\"\n", ["s.toml:1: NotWhole line_width", "1 mm is 1000"]),
        "a_number_out_of_range": (b"layer_height = 5\n", ["s.toml:1: OutOfRange layer_height", "20 to 1,000"]),
    }
    return [told(f"settings_{name}", 3, wanted, [*ONE, *SET], settings=settings)
            for name, (settings, wanted) in of.items()]


def unread(told):
    other, folder = [b"check", b"M.scad"], [b"check", b"a folder"]
    return [
        told("a_missing_source", 4, ["the source `M.scad`: there is no such file; beside it is `m.scad`"], other),
        told("a_source_that_is_a_folder", 4, ["the source `a folder`: is a folder"], folder),
        told("a_source_in_a_missing_folder", 4, ["there is no folder no"], [b"check", b"no/m.scad"]),
        told("a_misspelt_source", 4, ["there is no such file; beside it is `m.scad`"], [b"check", b"m.scd"]),
        told("missing_settings", 4, ["the settings `s.toml`: there is no such file"], [*ONE, *SET]),
    ]


def unwritten(told):
    at = lambda name: [*SLICE[:2], name]
    return [
        told("an_output_in_a_missing_folder", 5, ["the output CLI `no/o.cli`: there is no folder no"], at(b"no/o.cli")),
        told("an_output_that_is_a_folder", 5, ["the output CLI `a folder`: is a folder"], at(b"a folder")),
        told("an_output_that_is_the_source", 5, ["`./m.scad`: is the same file as MODEL, `m.scad`"], at(b"./m.scad")),
        told("an_output_that_is_the_settings", 5, ["`./s.toml`: is the same file as FILE, `s.toml`"],
             [*at(b"./s.toml"), *SET], settings=b"walls = 1\n"),
        told("two_outputs_that_are_one_file", 5, ["GCODE `./o.cli`: is the same file as CLI, `o.cli`"],
             [*PLAN[:3], b"./o.cli"]),
        told("a_full_output", 5, ["`/dev/full`: is a device that is always full"], at(b"/dev/full")),
        told("a_full_report", 5, ["standard output: is a device that is always full"], SLICE, shell='"$@" >/dev/full'),
        told("a_closed_report", 5, ["standard output: is closed"], SLICE, shell='"$@" >&-'),
        told("no_place_for_a_large_file", 5, ["files may have no more than"], SLICE, source=b"cube(100);",
             shell="trap '' XFSZ; ulimit -f 8; \"$@\""),
    ]


def warned(told):
    column = b"translate([%s, 0, %s]) cube([%s, 1, %s]);"
    of = lambda *numbers: column % tuple(b"%g" % it for it in numbers)
    return [
        told("nothing_of_a_good_part", 0, [], PLAN, source=b"cube(3);"),
        told("nothing_of_a_check", 0, [], ONE),
        told("no_layer_of_nothing", 0, ["no layer: the source makes no solid"], SLICE, source=b""),
        told("no_layer_below_the_bed", 0, ["no layer: the part lies below the bed"], SLICE, source=of(0, -1, 1, 1)),
        told("no_layer_of_a_thin_part", 0, ["no layer: the part is thinner than half a layer, 0.100 mm"], SLICE,
             source=of(0, 0, 1, 0.05)),
        told("a_part_in_the_air", 0, ["first layer with outlines is number 5"], SLICE, source=of(0, 1, 1, 1)),
        told("negative_coordinates", 0, ["coordinates are negative, as x = -0.500 mm, which"], PLAN,
             source=of(-0.5, 0, 1, 1)),
        told("walls_thinner_than_a_line", 0, ["no extruding move", ": 0 to 4; a smaller `line_width`"], PLAN,
             source=of(0, 0, 0.3, 1)),
    ]


OUTLINES = b"""$$HEADERSTART
$$ASCII
$$UNITS/0.001
$$VERSION/200
$$LAYERS/1
$$HEADEREND
$$GEOMETRYSTART
$$LAYER/200
$$POLYLINE/1,1,5,0,0,9000,0,9000,9000,0,9000,0,0
$$GEOMETRYEND
"""
PROGRAM = b"G28\nG1 Z0.2\nG1 X0.5 Y0.5\nG1 X5 E1\n"


def outside(told):
    of = lambda name, wanted, program, outlines=OUTLINES, words=VERIFY, **more: told(
        f"a_move_{name}", 8, [*wanted, "docs/formats.md"], words, files={"o.cli": outlines, "o.gcode": program}, **more)
    above = PROGRAM + b"G1 Z0.4\nG1 X1 E2\n"
    move = ["o.gcode:4: Outside\n    4 | G1 X5 E1\n", "extruding move 1 of", "from (0.500, 0.500) to (5.000, 0.500) at z = 0.200",
            "half of `line_width` = 2000, 1.0000 mm", "--settings FILE"]
    wide = {"words": [*VERIFY, *SET], "settings": b"line_width = 2000\n"}
    files = {"o.cli": OUTLINES.replace(b"9000", b"900"), "o.gcode": PROGRAM, "n.gcode": PROGRAM}
    return [
        of("by_wide_lines", move, PROGRAM, **wide),
        of("by_a_report_in_a_file", move, PROGRAM, shell='"$@" >report', **wide),
        of("past_its_outlines", ["`line_width` = 450", "are these the outlines of the program"], PROGRAM,
           OUTLINES.replace(b"9000", b"900")),
        of("without_a_layer", ["o.gcode:6: Outside", "move 2", "at z = 0.400", "`o.cli` has no layer at this height",
                               "(the next are 0.200 mm)"], above),
        of("that_rises", ["z = 0.200 mm to 0.400, and an extruding move has to keep"], PROGRAM + b"G1 X1 Z0.4 E2\n"),
        of("behind_a_place_that_was_set", ["from (0.000, 0.000) to (-1.000, 0.000) at z = 0.200"],
           PROGRAM + b"G92 X0 Y0\nG1 X-1 E2\n"),
        of("of_a_support", ["o.gcode:7: Outside\n    7 | G1 X25 E2\n", "extruding move 2 of", "first move of a support"],
           PROGRAM + b"; supports\nG1 X20 Y0.5\nG1 X25 E2\n"),
        told("a_move_of_a_program_from_a_pipe", 8, ["an extruding move doesn't stay inside"],
             [*VERIFY[:2], b"/dev/stdin"], files=files, shell='cat n.gcode | "$@"'),
        told("nothing_of_moves_that_stay", 0, [], VERIFY, files={"o.cli": OUTLINES, "o.gcode": PROGRAM}),
    ]


def bad_outlines(told):
    of = lambda name, wanted, old, new, count=1: told(
        f"outlines_{name}", 9, wanted, VERIFY, files={"o.cli": OUTLINES.replace(old, new, count), "o.gcode": PROGRAM})
    last = b"$$GEOMETRYEND\n"
    return [
        of("of_nothing", ["o.cli:1: BadLine\n", "line 1 has to be `$$HEADERSTART`", "docs/formats.md"], OUTLINES, b""),
        of("in_other_units", ["o.cli:3: BadLine\n    3 | $$UNITS/1\n", "has to be `$$UNITS/0.001`"], b"0.001", b"1"),
        of("without_their_end", ["o.cli:10: BadLine\n", "the file ends before `$$GEOMETRYEND`"], last, b""),
        of("with_more_behind", ["o.cli:11: BadLine\n   11 |\n", "nothing may stand behind"], last, last + b"\n"),
        of("with_a_comment", ["    8 | // x\n", "comments aren't read"], b"$$LAYER/", b"// x\n$$LAYER/"),
        of("in_broken_numbers", ["o.cli:9: BadLine", "whole micrometres"], b"9000", b"9.0"),
        of("with_a_broken_height", ["o.cli:8: BadLine", "whole"], b"R/200", b"R/0.2"),
        of("with_a_height_twice", ["o.cli:9: BadLine", "heights are whole and ascend"], b"$$LAYER/200\n", b"$$LAYER/200\n" * 2),
        of("with_another_number_of_points", ["o.cli:9: CountDiffers\n    9 | $$POLYLINE/1,1,6,", ": said is 6, there are 5"],
           b"1,1,5,", b"1,1,6,"),
        of("with_another_number_of_hatches", ["o.cli:10: CountDiffers\n   10 | $$HATCHES/1,2,", ": said is 2, there are 1"],
           last, b"$$HATCHES/1,2,0,0,1,1\n" + last),
        of("with_another_number_of_layers", ["o.cli:5: CountDiffers\n    5 | $$LAYERS/2", ": said is 2, there are 1"],
           b"LAYERS/1", b"LAYERS/2"),
        told("outlines_from_a_pipe", 9, ["/dev/stdin:10: BadLine\n", "in its place\n"], [b"verify", b"/dev/stdin", b"o.gcode"],
             files={"n.cli": OUTLINES.replace(last, b""), "o.gcode": PROGRAM}, shell='cat n.cli | "$@" >report'),
        of("that_are_open", ["o.cli:9: OpenLoop\n    9 | $$POLYLINE", "four points at least"], b",0,0\n", b",0,1\n"),
        told("outlines_that_are_not_there", 4, ["the file CLI `O.cli`: there is no such file; beside it is `o.cli`"],
             [b"verify", b"O.cli", b"o.gcode"], files={"o.cli": OUTLINES, "o.gcode": PROGRAM}),
        told("a_program_that_is_not_there", 4, ["the file GCODE `o.gcod`: there is no such file; beside it is `o.gcode`"],
             [*VERIFY[:2], b"o.gcod"], files={"o.cli": OUTLINES, "o.gcode": PROGRAM}),
        told("a_program_without_end", 6, ["FileLong: one of the two files has more than 268,435,456 bytes", "what helps"],
             [*VERIFY[:2], b"/dev/zero"], files={"o.cli": OUTLINES}, shell='"$@" >report'),
    ]


def bad_programs(told):
    of = lambda name, wanted, line: told(f"a_program_{name}", 9, [*wanted, "docs/formats.md"], VERIFY,
                                         files={"o.cli": OUTLINES, "o.gcode": b"G28 ; home\n" + line + b"\n"})
    unknown = "o.gcode:2: UnknownWord\n    2 | "
    return [
        of("with_progress", [f"{unknown}M73 P1\n", "`M73` moves nothing, so its lines may be taken out"], b"M73 P1"),
        of("with_arcs", [f"{unknown}G2 X1\n", "`G2`: arcs aren't read"], b"G2 X1"),
        of("with_relative_amounts", [f"{unknown}M83 ; x\n", "amounts are read as absolute ones"], b"M83 ; x"),
        of("with_an_unknown_command", [f"{unknown}START\n", "isn't read"], b"START"),
        of("with_a_tab", [unknown, "parted by spaces alone"], b"G1\tX1"),
        of("with_four_decimals", ["o.gcode:2: BadNumber\n    2 | G1 X1.0001\n", "out of its range"], b"G1 X1.0001"),
    ]


class WordsOfCases:
    """The launcher takes the words of each golden case exactly where the case doesn't end by Usage."""

    name = "explained_words_of_the_cases"

    def tried(self, _program):
        sys.path.insert(0, os.path.join(os.path.dirname(os.path.dirname(FOLDER)), "explain"))
        from words import Slip, job_of

        found = []
        for case in sorted(os.listdir(FOLDER)):
            words = [it.decode("utf-8", "surrogateescape") for it in lines_of(content(f"{FOLDER}/{case}/words"))]
            status = f"{FOLDER}/{case}/status"
            is_refused = os.path.exists(status) and int(content(status)) == 2
            if isinstance(job_of(words), Slip) != is_refused:
                found.append(f"{case} is judged otherwise: {words}")
        return found


class Workshop:
    """A small repository of the launcher, its crates without code, and a kit whose `rattle` notes what it is asked for."""

    RT = "#!/bin/sh\n[ \"$*\" = doc ] && echo {room}/kit/page\n"
    RATTLE = """#!/bin/sh
echo "$(basename "$PWD") $*" >>{room}/asked
for made; do case "$made" in *=*/out/libraries/*.rlib) [ -d "${{made#*=}}" ] || exit 1; esac; done
[ "$(basename "$PWD")" = scad_tool ] && cp {program} "$made" || mkdir "$made"
"""
    LINK = "#!/bin/sh\nwhile [ \"$1\" != -o ]; do shift; done\ncp \"$3\" \"$2\"\n"

    def __init__(self, launcher):
        self.top = os.path.dirname(launcher)

    def run(self, room, program, words):
        how = self.made(room, program)
        return subprocess.run([f"{room}/scadslice", *words], timeout=TIME_LIMIT, capture_output=True, **how)

    def made(self, room, program):
        """Fills the room; how a process is started there."""
        os.makedirs(f"{room}/docs")
        os.makedirs(f"{room}/bin")
        place(f"{room}/scadslice", content(f"{self.top}/scadslice"))
        for name in ("crates.txt", "docs/architecture.md"):
            shutil.copy(f"{self.top}/{name}", f"{room}/{name}")
        for name in ("explain", "building"):
            shutil.copytree(f"{self.top}/{name}", f"{room}/{name}", ignore=shutil.ignore_patterns("__pycache__"))
        with open(f"{room}/crates.txt", encoding="utf-8") as file:
            for crate in (line.split(":")[0].split()[0] for line in file if line[0].islower()):
                os.makedirs(f"{room}/crates/{crate}/src")
        os.makedirs(f"{room}/kit/bin")
        place(f"{room}/kit/KIT-ID", b"a kit\n")
        for path, script in (("bin/rt", self.RT), ("kit/bin/rattle", self.RATTLE), ("kit/bin/rattle-link", self.LINK)):
            place(f"{room}/{path}", script.format(room=shlex.quote(room), program=shlex.quote(program)).encode())
        return {"cwd": room, "stdin": subprocess.DEVNULL, "env": {"PATH": f"{room}/bin:{PATH}", "LANG": "C.UTF-8"}}


class WithoutProgram(Workshop):
    """Words that can't be read are answered before anything is built."""

    name = "explained_words_without_a_program"

    def tried(self, program):
        found = []
        for words in ([], ["--help"], ["chekc", "m.scad"], ["slice", "m.scad"]):
            with tempfile.TemporaryDirectory(prefix="scadslice-") as room:
                ended = self.run(room, program, words)
                is_built = os.path.exists(f"{room}/asked")
            wanted = (2, b"usage: scadslice COMMAND\n", False)
            if (ended.returncode, ended.stdout, is_built) != wanted or b"scadslice plan MODEL" not in ended.stderr:
                found.append(f"{words}: {ended}")
        return found


class Building(Workshop):
    """A first build tells its share and the time left, and proves each crate behind its libraries."""

    name = "explained_first_build"

    def tried(self, program):
        with tempfile.TemporaryDirectory(prefix="scadslice-") as room:
            with open(f"{room}/m.scad", "wb") as file:
                file.write(CUBE)
            ended = self.run(room, program, ["check", "m.scad"])
            with open(f"{room}/asked", encoding="utf-8") as file:
                asked = [line.split() for line in file]
        lines = ended.stderr.decode().splitlines()
        shares = [int(line.split()[1]) for line in lines if " % done, " in line]
        told = (ended.returncode, ended.stdout) == (0, b"ok: 1 leaves, 12 triangles, 5 layers\n")
        found = [f"it ended with {ended}"] * (not told)
        found += ["the shares don't rise from 0"] * (shares != sorted(shares) or shares[0] != 0 or shares[-1] < 80)
        is_weighed = any(after - before > 4 for before, after in zip(shares, shares[1:]))
        found += ["no crate takes longer than the others"] * (not is_weighed)
        found += ["no time is told"] * (" left; proving crate 1 of " not in lines[0])
        found += [f"rattle was asked at last for {asked[-1]}"] * (asked[-1][:2] != ["scad_tool", "build"])
        libraries = {words[0]: set(re.findall(r"(\w+)=\S*/out/libraries/", " ".join(words))) for words in asked}
        found += [f"{crate} is proved before its libraries" for at, crate in enumerate(libraries)
                  if not libraries[crate] <= set(list(libraries)[:at])]
        return found + ["a crate is asked for twice"] * (len(libraries) != len(asked))


class Rebuilding(Workshop):
    """After a change of one crate it and those above it are proved again, and no other."""

    name = "explained_build_after_a_change"
    CHANGED = "scad_hull"

    def tried(self, program):
        with tempfile.TemporaryDirectory(prefix="scadslice-") as room:
            how = {**self.made(room, program), "timeout": TIME_LIMIT, "capture_output": True}
            with open(f"{room}/m.scad", "wb") as file:
                file.write(CUBE)
            first, asked = self.asked(room, how)
            place(f"{room}/crates/{self.CHANGED}/src/lib.rt", b"// another text\n")
            second, again = self.asked(room, how)
            third, nothing = self.asked(room, how)
        above = {self.CHANGED}
        for crate, libraries in asked.items():
            above |= {crate} if libraries & above else set()
        found = [f"it ended with {it}" for it in (first, second, third) if it.returncode != 0]
        found += [f"{again.keys()} are proved again"] * (again.keys() != above)
        return found + ["what is built is built again"] * bool(nothing)

    @staticmethod
    def asked(room, how):
        """How the launcher ended, and each crate that it had proved, with the crates that it uses."""
        ended = subprocess.run([f"{room}/scadslice", "check", "m.scad"], **how)
        if not os.path.exists(f"{room}/asked"):
            return ended, {}
        with open(f"{room}/asked", encoding="utf-8") as file:
            found = {line.split()[0]: set(re.findall(r"(\w+)=\S*/out/libraries/", line)) for line in file}
        os.remove(f"{room}/asked")
        return ended, found


class Builders(Workshop):
    """Of two launchers at once one builds, and both run the program."""

    name = "explained_two_first_builds"

    def tried(self, program):
        with tempfile.TemporaryDirectory(prefix="scadslice-") as room:
            how = {**self.made(room, program), "stdout": subprocess.PIPE, "stderr": subprocess.DEVNULL}
            with open(f"{room}/m.scad", "wb") as file:
                file.write(CUBE)
            both = [subprocess.Popen([f"{room}/scadslice", "check", "m.scad"], **how) for _ in range(2)]
            ended = [(it.communicate(timeout=TIME_LIMIT)[0], it.returncode) for it in both]
            asked = content(f"{room}/asked").split(b"\n")
        told = [f"they ended with {ended}"] * (ended != [(b"ok: 1 leaves, 12 triangles, 5 layers\n", 0)] * 2)
        return told + ["a crate is built twice"] * (len(asked) != len(set(asked)))


class NotBuilt(Workshop):
    """Where a crate can't be proved, the launcher says what `rattle` said and ends with the status 70; the next one goes on there."""

    name = "explained_a_build_that_fails"
    RATTLE = Workshop.RATTLE.replace("\nfor", """
if [ -e open ]; then echo an open goal; exit 1; fi
for""")

    def tried(self, program):
        with tempfile.TemporaryDirectory(prefix="scadslice-") as room:
            how = {**self.made(room, program), "timeout": TIME_LIMIT, "capture_output": True}
            place(f"{room}/crates/scad_cos/open", b"")
            ended = subprocess.run([f"{room}/scadslice", "check", "m.scad"], **how)
            os.remove(f"{room}/crates/scad_cos/open")
            with open(f"{room}/m.scad", "wb") as file:
                file.write(CUBE)
            again = subprocess.run([f"{room}/scadslice", "check", "m.scad"], **how)
            asked = content(f"{room}/asked").split(b"\n")
        is_told = b"scad_cos is not proved:\nan open goal" in ended.stderr and b"not built" in ended.stderr
        found = [f"it ended with {ended}"] * ((ended.returncode, ended.stdout, is_told) != (70, b"", True))
        found += [f"the next one ended with {again}"] * (again.returncode != 0)
        twice = {line.split()[0] for line in asked if line and asked.count(line) > 1}
        return found + [f"{twice} are asked for twice"] * (twice != {b"scad_cos"})


class KilledCheck(Workshop):
    """Where a signal ends a check, as where memory is wanting, the launcher says so."""

    name = "explained_a_check_that_a_signal_ends"
    RATTLE = Workshop.RATTLE.replace("\nfor", "\n[ \"$(basename \"$PWD\")\" = scad_cos ] && kill -KILL $$\nfor")

    def tried(self, program):
        with tempfile.TemporaryDirectory(prefix="scadslice-") as room:
            ended = self.run(room, program, ["check", "m.scad"])
        is_told = b"scad_cos is not proved: signal 9 ended its check" in ended.stderr
        return [f"it ended with {ended}"] * ((ended.returncode, ended.stdout, is_told) != (70, b"", True))


class Signals(Workshop):
    """A signal that ends the program ends the launcher, and one that ends the launcher ends the program."""

    name = "explained_signals"
    ENDED = "#!/bin/sh\nkill -SEGV $$\n"
    SLOW = f"#!/bin/sh\necho $$ >pid.new && mv pid.new pid\nexec sleep {2 * TIME_LIMIT}\n"

    def tried(self, _program):
        with tempfile.TemporaryDirectory(prefix="scadslice-") as room:
            ended = self.run(room, self.script(room, self.ENDED), ["check", "m.scad"])
        told = b"ended by signal 11" in ended.stderr and ended.returncode == -signal.SIGSEGV
        with tempfile.TemporaryDirectory(prefix="scadslice-") as room:
            how = self.made(room, self.script(room, self.SLOW))
            started = subprocess.Popen([f"{room}/scadslice", "check", "m.scad"], stderr=subprocess.DEVNULL, **how)
            pid = int(awaited(lambda: os.path.exists(f"{room}/pid") and content(f"{room}/pid")) or 0)
            started.terminate()
            is_gone = started.wait(TIME_LIMIT) == -signal.SIGTERM and pid > 0 and awaited(lambda: has_ended(pid))
        return [f"a program that a signal ended: {ended}"] * (not told) + ["it outlives its launcher"] * (not is_gone)

    @staticmethod
    def script(room, text):
        place(f"{room}/program", text.encode())
        return f"{room}/program"


def place(path, text):
    """Writes an executable by a process of its own: a file that is open here for writing may be open too in a process
    that another check is just starting, and until that one has started nobody can run the file."""
    subprocess.run(["install", "-m", "755", "/dev/stdin", path], input=text, check=True)


def has_ended(pid):
    """Whether no process of this number runs any more, though nobody may have taken its status in."""
    try:
        return content(f"/proc/{pid}/stat").rpartition(b")")[2].split()[0] == b"Z"
    except OSError:
        return True


def awaited(answer):
    """The answer once it isn't nothing, or what it is when a run must have ended."""
    end = time.monotonic() + TIME_LIMIT
    while not answer() and time.monotonic() < end:
        time.sleep(0.02)
    return answer()
