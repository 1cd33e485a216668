"""Checks of command lines, of texts of settings and of sources, a line of a table each.

`lines/` has what must come of them, by a plain program that shares nothing with this one. Texts are told with escapes:

    words       LINE STATUS REPORT: of these words, parted by `_`, over files of short and of odd names
    settings    TEXT STATUS REPORT: of a plan by settings of this text
    sources     TEXT STATUS REPORT: of `check` over this source
    nested      FRONT OPENING MIDDLE CLOSING BACK TIMES STATUS REPORT: of a source in which a construct stands in itself so
                many times, as often as it may and once more
    fronts      LENGTH STATUS REPORT: of so many bytes of the phone stand
"""

import os
import sys

from cases import EXAMPLES, TESTS, content
from check import Check, Each, Exactly
from plans import QUICK, printed
from streams import CUBE, outlines
from verdicts import files, rows_of, told

sys.path.insert(0, os.path.join(os.path.dirname(TESTS), "explain"))

from words import job_of  # noqa: E402 (it lies in the launcher's folder)

# The files by their names: of a verdict, and of all other commands.
JUDGED = dict.fromkeys(("a", "-", "--settings"), files()[0]) | dict.fromkeys(("b", "-b", "--workers"), files()[1])
MODELS = dict.fromkeys(("a", "-", "--settings", "7"), CUBE)
# A shelf on a foot, so that supports show.
SHELF = b"cube([9, 9, 0.8]); translate([0, 0, 0.6]) cube([20, 9, 0.2]);"
SETTINGS = dict.fromkeys(("s", "t", "s=t", "1", "verify"), QUICK)


def line_checks():
    stand = content(os.path.join(EXAMPLES, "stand.scad"))
    return [
        of_rows("words", 1, run_of),
        of_rows("settings", 1, planned_by),
        of_rows("sources", 1, lambda text, *end: checked(told(text), *end)),
        of_rows("nested", 6, lambda *row: checked(nested(*row[:6]), *row[6:])),
        of_rows("fronts", 1, lambda length, *end: checked(stand[:int(length)], *end)),
    ]


def of_rows(table, width, check_of):
    """The checks of a table, each by its words."""
    rows = rows_of(table, width, "lines")
    return Each(f"lines_of_{table}", {" ".join(words): check_of(*words, status, report) for words, status, report in rows})


def run_of(line, status, report):
    """A run of these words. Where it is done, its outputs are those of a cube, in thick layers by settings."""
    words = line.split("_")
    given = (JUDGED if words[0] == "verify" else MODELS) | SETTINGS
    left = written(job_of(words)) if report.startswith(b"done: ") else {}
    return Check("", [it.encode() for it in words], status, report, given, left=left)


def written(job):
    how = (1, 1000) if job.settings else (5, 200)
    texts = {"CLI": outlines(1, *how), "GCODE": printed(*how)}
    return {job.names[it]: Exactly(text) for it, text in texts.items() if it in job.names}


def planned_by(text, status, report):
    """A plan by settings, of which nothing is kept but the report."""
    words = [b"plan", b"m.scad", b"/dev/null", b"/dev/./null", b"--settings", b"s.toml"]
    return Check("", words, status, report, {"m.scad": SHELF, "s.toml": told(text)})


def checked(source, status, report):
    return Check("", [b"check", b"m.scad"], status, report, {"m.scad": source})


def nested(front, opening, middle, closing, back, times):
    parts = [front, *[opening] * int(times), middle, *[closing] * int(times), back]
    return told("".join(parts))
