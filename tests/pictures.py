"""Checks of `picture` over files that are given, and of the pictures in `docs/pictures`, which are drawn of parts in
`examples/`. `python3 tests/pictures.py` draws all of them anew, with the program that is built.
"""

import os
import subprocess
import sys
import tempfile
import xml.etree.ElementTree

from cases import EXAMPLES, TESTS, content
from check import PLAIN, Check, Exactly, compared, run, shown

TOP = os.path.dirname(TESTS)
PICTURE = os.path.join(TOP, "picture")
GOLDEN = os.path.join(TESTS, "pictures")
DOCS = os.path.join(TOP, "docs", "pictures")

# The pictures in docs/pictures: the part, its settings and the layer.
THICK = b"layer_height = 1000\n"
DRAWN = {
    "plate": (content(os.path.join(EXAMPLES, "print.toml")), b"5"),
    "knob": (THICK, b"5"),
    "box": (THICK, b"2"),
    "arch": (content(os.path.join(EXAMPLES, "arch.toml")), b"50"),
}

# Two layers: a square with a hole, and one that is empty; with walls, infill, supports and travels.
CLI = b"""$$HEADERSTART
$$ASCII
$$UNITS/0.001
$$VERSION/200
$$LAYERS/2
$$HEADEREND
$$GEOMETRYSTART
$$LAYER/200
$$POLYLINE/1,1,5,-2000,0,12000,0,12000,9000,-2000,9000,-2000,0
$$POLYLINE/1,0,5,0,3000,0,6000,3000,6000,3000,3000,0,3000
$$LAYER/400
$$GEOMETRYEND
"""
GCODE = b"""; scadslice
G21
G28
G92 E0
; layer 0
G1 Z0.200 F7200
G1 X-1.775 Y0.225 F7200
G1 X11.775 Y0.225 E0.1 F1800
G1 X11.775 Y8.775 E0.2 F1800
G1 X-1.775 Y8.775 E0.3 F1800
G1 X-1.775 Y0.225 E0.4 F1800
G1 X-0.500 Y2.000 F7200
G1 X10.900 Y2.000 E0.5 F1800
; layer 1
G1 Z0.400 F7200
; supports
G1 X0.000 Y1.000 F7200
G1 X9.000 Y1.000 E0.6 F1800
M104 S0
"""
GIVEN = {"o.cli": CLI, "o.gcode": GCODE}


class Drawn:
    """One run of `picture`: its status, the picture that must come of it, and a text of standard error."""

    def __init__(self, name, words, golden=None, status=0, errors="", given=GIVEN):
        self.name, self.words, self.golden, self.status = f"picture_{name}", words, golden, status
        self.errors, self.given = errors, given

    def tried(self, _program):
        left = {} if self.golden is None else {self.words[0].decode(): Exactly(content(f"{GOLDEN}/{self.golden}"))}
        check = Check(self.name, self.words, self.status, given=self.given, left=left, shell=PLAIN)
        outcome = run(check, PICTURE)
        told, outcome.errors = outcome.errors, b""
        found = compared(check, outcome)
        if (not self.errors and told) or self.errors.encode() not in told:
            found.append(f"standard error has {shown(told)}")
        return found + (faults_of(outcome.left.get(self.words[0].decode(), b"")) if self.golden else [])


def faults_of(picture):
    """What is wrong with a picture, whatever it shows."""
    if b"//" in picture.replace(b"http://www.w3.org/2000/svg", b"").replace(b"\n// ", b""):
        return ["it names a place to load from"]
    if picture.startswith(b"<svg"):
        try:
            xml.etree.ElementTree.fromstring(picture)
        except xml.etree.ElementTree.ParseError as error:
            return [f"it is no XML: {error}"]
    return []


def picture_checks():
    svg, both = b"o.svg", [b"o.cli", b"o.gcode"]
    refused = lambda name, words, errors, status=1, **more: Drawn(name, words, None, status, errors, **more)
    return [
        Drawn("of_a_layer", [svg, *both], "layer.svg"),
        Drawn("of_outlines_alone", [svg, both[0]], "outlines.svg"),
        Drawn("of_a_later_layer", [svg, *both, b"--layer", b"1"], "supports.svg"),
        Drawn("of_a_sheet", [svg, *both, b"--sheet"], "sheet.svg"),
        Drawn("of_a_page", [b"o.html", *both], "page.html"),
        Drawn("of_a_page_with_its_word", [b"o.html", *both, b"--all"], "page.html"),
        refused("of_a_layer_that_is_not_there", [svg, *both, b"--layer", b"2"], "the layers are 0 to 1"),
        refused("of_no_file", [svg, b"other.cli"], "other.cli"),
        refused("of_no_outlines", [svg, b"o.gcode"], "o.gcode:1: no line of a file of outlines"),
        refused("of_no_printing_program", [svg, b"o.cli", b"o.cli"], "o.cli:1: no line of a printing program"),
        refused("of_a_broken_polyline", [svg, b"p.cli"], "p.cli:2: a polyline has pairs",
                given={"p.cli": b"$$LAYER/200\n$$POLYLINE/1,1,4,0,0,9\n"}),
        refused("over_its_outlines", [b"o.cli", b"o.cli"], "./picture OUT CLI", 2),
        refused("over_its_outlines_by_their_ending", [b"./o.svg", b"o.svg"], "would be lost", given={"o.svg": CLI}),
        refused("over_a_source", [b"m.scad", b"o.cli"], "./picture OUT CLI", 2, given={**GIVEN, "m.scad": b"cube(1);"}),
        refused("of_no_words", [], "./picture OUT CLI", 2),
        ManyLayers(),
        *(OfDocuments(name) for name in DRAWN),
    ]


class ManyLayers:
    """A sheet of 10,000 layers takes hardly more memory than one of 100."""

    name = "picture_of_many_layers"

    def tried(self, _program):
        few = next((it for it in range(16384, 262144, 4096) if self.is_drawn(100, it)), None)
        if few is None:
            return ["100 layers aren't drawn in 256 MiB"]
        return [] if self.is_drawn(10_000, few + 8192) else ["10,000 layers take more memory"]

    @staticmethod
    def is_drawn(layers, limit):
        """Whether a sheet of so many layers is drawn within so many KiB."""
        side = lambda i: ",".join(f"{x},{x * i % 9973}" for x in range(0, 40_000, 1000))
        text = "".join(f"$$LAYER/{20 * (i + 1)}\n$$POLYLINE/1,1,41,{side(i)},0,0\n" for i in range(layers))
        check = Check("", [b"o.svg", b"o.cli", b"--sheet"], given={"o.cli": text.encode()},
                      shell=f'ulimit -v {limit} && exec "$@"')
        outcome = run(check, PICTURE)
        return outcome.status == 0 and outcome.left["o.svg"].count(b"<text") == layers


class OfDocuments:
    """A picture in `docs/pictures` is the one that comes of its part."""

    def __init__(self, part):
        self.part, self.name = part, f"picture_of_the_{part}"

    def tried(self, program):
        found = Exactly(content(f"{DOCS}/{self.part}.svg")).difference(drawn(self.part, program))
        anew = "python3 tests/pictures.py draws it anew"
        return [f"docs/pictures/{self.part}.svg differs, and {anew}: {found}"] * bool(found)


def drawn(part, program):
    """The picture of a part that the program plans."""
    settings, layer = DRAWN[part]
    with tempfile.TemporaryDirectory(prefix="scadslice-") as room:
        with open(f"{room}/s.toml", "wb") as file:
            file.write(settings)
        quietly = {"cwd": room, "check": True, "stdout": subprocess.DEVNULL}
        names = ["o.cli", "o.gcode"]
        subprocess.run([program, "plan", f"{EXAMPLES}/{part}.scad", *names, "--settings", "s.toml"], **quietly)
        subprocess.run([PICTURE, "o.svg", *names, "--layer", layer.decode()], **quietly)
        return content(f"{room}/o.svg")


if __name__ == "__main__":
    for name in DRAWN:
        picture = drawn(name, sys.argv[1] if sys.argv[1:] else f"{TOP}/crates/scad_tool/out/scad_tool")
        with open(f"{DOCS}/{name}.svg", "wb") as out:
            out.write(picture)
