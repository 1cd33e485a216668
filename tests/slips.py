"""Checks of names that lead to one file: no source, no settings and no output is lost by a slip of a name.

What the names of a command have in common isn't seen in their texts. The program tells regular files apart by
what the system says of them, and refuses an output that is a file of the same run.
"""

from check import Check, Exactly
from plans import DONE as PLANNED
from plans import printed
from streams import CUBE, DONE, WRITE_FAULT, outlines

SETTINGS = b"layer_height = 200\n"
GIVEN = {"m.scad": CUBE, "s.toml": SETTINGS, "parts/it": b"kept\n"}
BOTH = {"o.cli": outlines(1), "o.gcode": printed(5)}

# (what the shell does before, the source, the outlines, the printing program). An output of `-` isn't asked for.
OVER_SOURCE = {
    "by_a_dot": ("", "m.scad", "./m.scad", "-"),
    "by_a_dot_before_the_source": ("", "./m.scad", "m.scad", "-"),
    "by_two_dots_and_slashes": ("", "m.scad", ".//.//m.scad", "-"),
    "through_a_folder": ("", "m.scad", "parts/../m.scad", "-"),
    "through_a_folder_to_the_source": ("", "parts/../m.scad", "m.scad", "-"),
    "from_the_root": ("ln -s $PWD way", "m.scad", "way/m.scad", "-"),
    "through_the_folder_of_the_process": ("", "m.scad", "/proc/self/cwd/m.scad", "-"),
    "by_a_hard_link": ("ln m.scad o", "m.scad", "o", "-"),
    "by_a_hard_link_to_read": ("ln m.scad o", "o", "m.scad", "-"),
    "by_two_hard_links": ("ln m.scad o; ln m.scad p", "o", "p", "-"),
    "by_a_link": ("ln -s m.scad o", "m.scad", "o", "-"),
    "by_a_link_to_read": ("ln -s m.scad o", "o", "m.scad", "-"),
    "by_a_link_to_a_link": ("ln -s m.scad o; ln -s o p", "m.scad", "p", "-"),
    "by_a_link_to_a_hard_link": ("ln m.scad o; ln -s o p", "m.scad", "p", "-"),
    "by_a_link_from_a_folder": ("ln -s ../m.scad parts/o", "m.scad", "parts/o", "-"),
    "through_a_linked_folder": ("ln -s . here", "m.scad", "here/m.scad", "-"),
    "from_standard_input": ("exec <m.scad", "/dev/stdin", "m.scad", "-"),
    "through_an_open_file": ("exec 3<m.scad", "m.scad", "/dev/fd/3", "-"),
    "of_outlines": ("", "m.scad", "./m.scad", "o.gcode"),
    "of_outlines_by_a_hard_link": ("ln m.scad o", "m.scad", "o", "o.gcode"),
    "of_outlines_and_program": ("ln m.scad o; ln m.scad p", "m.scad", "o", "p"),
}
OVER_SETTINGS = {
    "by_a_dot": ("", "m.scad", "./s.toml", "-"),
    "by_a_hard_link": ("ln s.toml o", "m.scad", "o", "-"),
    "by_a_link": ("ln -s s.toml o", "m.scad", "o", "-"),
    "of_outlines": ("", "m.scad", "parts/../s.toml", "o.gcode"),
}
# These are seen when the outlines are created already.
PROGRAM_OVER = {
    "the_source_by_a_dot": ("", "m.scad", "o.cli", "./m.scad"),
    "the_source_by_a_hard_link": ("ln m.scad o", "m.scad", "o.cli", "o"),
    "the_source_by_a_link": ("ln -s m.scad o", "m.scad", "o.cli", "o"),
    "the_settings_by_a_dot": ("", "m.scad", "o.cli", "./s.toml"),
    "the_settings_by_a_link": ("ln -s s.toml o", "m.scad", "o.cli", "o"),
    "the_outlines_by_a_dot": ("", "m.scad", "o.cli", "./o.cli"),
    "the_outlines_by_a_dot_before_them": ("", "m.scad", "./o.cli", "o.cli"),
    "the_outlines_through_a_folder": ("", "m.scad", "o.cli", "parts/../o.cli"),
    "the_outlines_by_a_hard_link": (">o.cli; ln o.cli o", "m.scad", "o.cli", "o"),
    "the_outlines_by_a_link": ("ln -s o.cli o", "m.scad", "o.cli", "o"),
    "the_outlines_by_a_link_before_them": ("ln -s o.cli o", "m.scad", "o", "o.cli"),
    "the_outlines_by_two_links": ("ln -s o.cli o; ln -s o.cli p", "m.scad", "o", "p"),
}
# Nothing is lost in these, and all comes as ever.
APART = {
    "a_device_for_both": ("", "m.scad", "/dev/null", "/dev/./null"),
    "a_device_that_is_read_too": ("", "/dev/null", "/dev/./null", "-"),
    "a_link_to_another_file": ("ln -s o.cli o", "m.scad", "o", "o.gcode"),
    "hard_links_to_other_files": (">o.cli; >o.gcode; ln o.cli o; ln o.gcode p", "m.scad", "o", "p"),
    "open_files": ("exec 3>o.cli 4>o.gcode", "m.scad", "/dev/fd/3", "/dev/fd/4"),
    "a_copy_of_the_source": ("cp m.scad o.cli", "m.scad", "o.cli", "-"),
}
PIPES = "mkfifo p q; cat p >o.cli & cat q >o.gcode &"
ONE_PIPE = "mkfifo p; cat p >both &"


class SameLines:
    """The lines of these texts, in whatever order."""

    def __init__(self, *texts):
        self.lines = sorted(line for text in texts for line in text.splitlines())

    def difference(self, found):
        return None if sorted(found.splitlines()) == self.lines else "other lines"


def slip_checks():
    refused = {f"over_the_source_{name}": (it, {}) for name, it in OVER_SOURCE.items()}
    refused |= {f"over_the_settings_{name}": (it, {}) for name, it in OVER_SETTINGS.items()}
    refused |= {f"a_program_over_{name}": (it, {"o.cli": b""}) for name, it in PROGRAM_OVER.items()}
    return [*(run_over(name, it, 5, WRITE_FAULT, left) for name, (it, left) in refused.items()), *apart(), *pipes()]


def run_over(name, slip, status, report, left, after=""):
    """A check of `slice`, or of `plan`, by these names with settings; `left` are the files beside those given."""
    before, model, cli, gcode = slip
    names = [model, cli] if gcode == "-" else [model, cli, gcode]
    words = ["slice" if gcode == "-" else "plan", "--settings", "s.toml", *names]
    shell = f'{before}\n"$@"; status=$?; {after} rm -f {MADE}; exit $status'
    expected = {file: it if hasattr(it, "difference") else Exactly(it) for file, it in left.items()}
    return Check(f"slip_{name}", [word.encode() for word in words], status, report, GIVEN, ["parts"], expected, shell)


# What the shell made: links under which the files are looked at already by their own names.
MADE = "o p q way here parts/o"


def apart():
    reports = {"a_device_that_is_read_too": b"done: 0 layers, 0 loops\n", "a_copy_of_the_source": DONE}
    left = {name: BOTH for name in ("a_link_to_another_file", "hard_links_to_other_files", "open_files")}
    left["a_copy_of_the_source"] = {"o.cli": BOTH["o.cli"]}
    return [run_over(name, it, 0, reports.get(name, PLANNED), left.get(name, {})) for name, it in APART.items()]


def pipes():
    """Pipes with names, one for both outputs too, and standard output beside the report."""
    parts = list(BOTH.values())
    mixed = SameLines(*parts)
    both = run_over("pipes", (PIPES, "m.scad", "p", "q"), 0, PLANNED, BOTH, "wait;")
    one = run_over("one_pipe_for_both", (ONE_PIPE, "m.scad", "p", "./p"), 0, PLANNED, {"both": mixed}, "wait;")
    stream = ("", "m.scad", "/dev/stdout", "o.gcode")
    told = run_over("standard_output", stream, 0, parts[0] + PLANNED, {"o.gcode": parts[1]})
    all_in_one = ("exec >/dev/null", "m.scad", "/dev/stdout", "/dev/fd/1")
    return [both, one, told, run_over("standard_output_for_all", all_in_one, 0, b"", {})]
