"""The golden cases: `cases/NAME/` with what is given to the program and what must come of it.

    words                the words behind the program's name, one a line
    model.scad           the source, where there is one
    given.cli            the outlines that are judged by, where there are some
    given.gcode          the printing program that is judged, where there is one
    settings.toml        the settings, where there are some
    workers              numbers of workers, one a line, where there are some: with each of them, by the
                         option behind the words, the same must come
    report               what must stand on standard output
    status               the exit status, where it isn't 0
    outlines.cli         the outlines that must be written, or their checksum: outlines.cli.sha256
    print.gcode          the printing program that must be written, or print.gcode.sha256

The words name these files. A file that isn't there must not be written. The parts in `examples/` are checked too.
"""

import os
import re
from dataclasses import replace

from check import Check, Checksum, Each, Exactly

TESTS = os.path.dirname(os.path.realpath(__file__))
FOLDER = os.path.join(TESTS, "cases")
EXAMPLES = os.path.join(os.path.dirname(TESTS), "examples")
GIVEN = ("model.scad", "settings.toml", "given.cli", "given.gcode")
WRITTEN = ("outlines.cli", "print.gcode")
KNOWN = {"words", "report", "status", "workers", *GIVEN, *WRITTEN, *(f"{name}.sha256" for name in WRITTEN)}


class BadCase:
    """A folder that is no case: it fails and says why."""

    def __init__(self, name, why):
        self.name, self.why = name, why

    def tried(self, _program):
        return [f"it is no case: {self.why}"]


def golden_cases():
    """All cases, by their names."""
    return [golden_case(name) for name in sorted(os.listdir(FOLDER))]


def example_checks():
    """`check` of each part in `examples/`, with the report that stands beside it."""
    names = sorted(it[:-5] for it in os.listdir(EXAMPLES) if it.endswith(".scad"))
    return [
        Check(
            name=f"example_{name}",
            words=[b"check", b"model.scad"],
            status=0,
            report=content(os.path.join(EXAMPLES, f"{name}.report")),
            given={"model.scad": content(os.path.join(EXAMPLES, f"{name}.scad"))},
            left={},
        )
        for name in names
    ]


def golden_case(name):
    try:
        return read_case(name)
    except (OSError, ValueError) as error:
        return BadCase(name, error)


def read_case(name):
    folder = os.path.join(FOLDER, name)
    files = {it: content(os.path.join(folder, it)) for it in os.listdir(folder)}
    if not re.fullmatch("[a-z0-9_]+", name):
        raise ValueError("its name isn't of small letters, digits and _")
    for file in files.keys() - KNOWN:
        raise ValueError(f"the file {file} has no meaning")
    for file in {"words", "report"} - files.keys():
        raise ValueError(f"the file {file} is missing")
    check = Check(
        name=name,
        words=lines_of(files["words"]),
        status=status_of(files.get("status", b"0")),
        report=files["report"],
        given={it: files[it] for it in GIVEN if it in files},
        left={it: written for it in WRITTEN if (written := written_in(files, it))},
    )
    return Each(name, checks_by_workers(check, files["workers"])) if "workers" in files else check


def checks_by_workers(check, numbers):
    """The check with the option behind its words, for each of these numbers of workers."""
    told = [(number.decode(), [*check.words, b"--workers", number]) for number in lines_of(numbers)]
    return {f"{number} workers": replace(check, words=words) for number, words in told}


def written_in(files, name):
    """What must be written under this name, or None."""
    checksum = files.get(f"{name}.sha256")
    if checksum is None:
        return Exactly(files[name]) if name in files else None
    found = re.fullmatch(rf"([0-9a-f]{{64}})  {re.escape(name)}\n", checksum.decode())
    if not found or name in files:
        raise ValueError(f"{name}.sha256 is no line of sha256sum, or stands beside {name}")
    return Checksum(found[1])


def lines_of(text):
    *lines, rest = text.split(b"\n")
    if rest:
        raise ValueError("the last line of words or workers has no end")
    return lines


def status_of(text):
    if not re.fullmatch(rb"[0-9]{1,3}\n?", text):
        raise ValueError("status has no number")
    return int(text)


def content(path):
    with open(path, "rb") as file:
        return file.read()
