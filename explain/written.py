"""Warnings after `slice` and `plan`, from the outlines and the printing program that were written."""

import os
import re
import tempfile

from look import is_regular
from run import last_line_of
from settings import layer_height

# Bytes of a piece of a file, and the most of a file that is looked at.
PIECE, MOST = 1 << 20, 1 << 29
LAYER = re.compile(rb"\$\$LAYER/(\d+)\n(?:\$\$POLYLINE/)?")
# A layer of the printing program that has no move but its height.
NO_MOVE = re.compile(rb"; layer (\d+)\nG1 Z[^\n]*\n(?=; layer |M104 )")
# The coordinates of an outline of which one is negative.
NEGATIVE = re.compile(rb"\$\$POLYLINE/1,[01],\d+,([\d,]*-[\d,-]*)")


def warnings(job, program):
    """Lines on what is likely wrong with the part, though its files are as they must be."""
    name = job.names["CLI"]
    if not is_regular(name) or os.path.getsize(name) > MOST:
        return []
    seen = Outlines(name)
    if not seen.layers:
        return [no_layer(job, program)]
    told, empty = [], set(seen.empty)
    if seen.empty and seen.empty[0] == 0 and len(seen.empty) < seen.layers:
        first = next(it for it in range(seen.layers) if it not in empty)
        told.append(f"the first layer with outlines is number {first}: the part hangs in the air; "
                    "move it down to z = 0")
    if len(seen.empty) == seen.layers:
        told.append("no layer has an outline")
    if seen.negative:
        told.append(f"coordinates are negative, as {seen.negative}, which most machines clamp or refuse: "
                    "move the part by `translate([x, y, 0])`")
    if job.command == "plan":
        told += no_moves(job.names["GCODE"], empty)
    return told


class Outlines:
    """Of a file of outlines: the number of layers, those that are empty, and the least coordinates of the first
    outline that has negative ones."""

    def __init__(self, name):
        self.layers, self.empty, self.negative = 0, [], ""
        for piece in pieces(name, b"\n$$LAYER/"):
            for found in LAYER.finditer(piece):
                if not found[0].endswith(b"/"):
                    self.empty.append(self.layers)
                self.layers += 1
            self.negative = self.negative or least_of(NEGATIVE.search(piece))


def least_of(outline):
    """The negative ones of the least x and y of an outline, or nothing."""
    if not outline:
        return ""
    numbers = list(map(int, outline[1].split(b",")))
    least = {"x": min(numbers[::2]), "y": min(numbers[1::2])}
    return ", ".join(f"{axis} = {it / 1000:.3f} mm" for axis, it in least.items() if it < 0)


def pieces(name, start):
    """The bytes of a file in pieces that each begin before a line with this start, but for the first."""
    with open(name, "rb") as file:
        kept = b""
        while read := file.read(PIECE):
            kept += read
            at = kept.rfind(start)
            if at > 0:
                yield kept[:at + 1]
                kept = kept[at + 1:]
        yield kept


def no_moves(name, empty):
    """A line on the layers that have outlines and no extruding move."""
    if not is_regular(name) or os.path.getsize(name) > MOST:
        return []
    bare = []
    # (a piece ends before a layer's line, so its last layer is judged with what follows it)
    for piece in pieces(name, b"\n; layer "):
        bare += [int(it[1]) for it in NO_MOVE.finditer(piece + b"; layer ")]
    bare = [it for it in bare if it not in empty]
    return [f"layers with outlines and no extruding move, since their walls are thinner than a line: "
            f"{ranges(bare)}; a smaller `line_width`, or thicker walls"] * bool(bare)


def ranges(numbers):
    """Numbers in ascending order as few words: 1, 3 to 7."""
    told = []
    for it in numbers:
        if told and told[-1][1] == it - 1:
            told[-1][1] = it
        else:
            told.append([it, it])
    words = [f"{a}" if a == b else f"{a} to {b}" for a, b in told]
    return ", ".join(words[:8]) + f" and {len(words) - 8} more" * (len(words) > 8)


def no_layer(job, program):
    """Why a part has no layer: the program is asked again, also with thinner layers."""
    told = last_line_of(job, program) or b""
    leaves = re.match(rb"ok: (\d+) leaves", told)
    if leaves and leaves[1] == b"0":
        return "no layer: the source makes no solid, or its set operations leave none"
    with tempfile.NamedTemporaryFile("w", suffix=".toml") as file:
        file.write("layer_height = 20\n")
        file.flush()
        thin = last_line_of(job, program, file.name) or b""
    height = layer_height(job.settings)
    if re.match(rb"ok: .* [1-9]\d* layers", thin) and height:
        return f"no layer: the part is thinner than half a layer, {height / 2000:.3f} mm"
    return "no layer: the part lies below the bed, z = 0; move it up by `translate([0, 0, z])`"
