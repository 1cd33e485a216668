"""Reads outlines and printing programs as `docs/formats.md` has them, one layer at a time.

All lengths are whole micrometres. A point is a pair, a path a list of points.
"""

import itertools
import re
from dataclasses import dataclass, field

MOVE = re.compile(rb"G1 X(-?\d+)\.(\d{3}) Y(-?\d+)\.(\d{3})( E\S+)? F\d+")
HEIGHT = re.compile(rb"G1 Z(-?\d+)\.(\d{3}) F\d+")


class BadFile(Exception):
    """A line that isn't of the form, with the file's name and the line's number."""


@dataclass
class Layer:
    """What is known of one layer: its height, its outlines, and the paths of its printing program."""

    number: int
    z: int = None
    outlines: list = field(default_factory=list)
    walls: list = field(default_factory=list)
    infill: list = field(default_factory=list)
    supports: list = field(default_factory=list)
    travels: list = field(default_factory=list)

    def moves(self):
        return sum(len(path) - 1 for path in self.walls + self.infill + self.supports)


def layers_of(cli, gcode=None):
    """The layers of both files, from the lowest up; those of a file that ends earlier lack its part."""
    drawn = outlines_of(cli)
    if gcode is None:
        yield from drawn
        return
    for layer, planned in itertools.zip_longest(drawn, plans_of(gcode)):
        if layer and planned:
            planned.z, planned.outlines = layer.z, layer.outlines
        yield planned or layer


def outlines_of(name):
    """The layers of a file of outlines."""
    layer, number = None, -1
    with open(name, "rb") as file:
        for at, line in enumerate(file, 1):
            if line.startswith(b"$$LAYER/"):
                if layer:
                    yield layer
                number += 1
                layer = Layer(number, z=whole(name, at, line[8:]))
            elif line.startswith(b"$$POLYLINE/") and layer:
                layer.outlines.append(points_of(name, at, line))
            elif not line.startswith(b"$$"):
                raise BadFile(f"{name}:{at}: no line of a file of outlines")
    if layer:
        yield layer


def points_of(name, at, line):
    """The points of a polyline, the first again at the end."""
    try:
        numbers = list(map(int, line.split(b",")[3:]))
    except ValueError:
        numbers = []
    if len(numbers) < 8 or len(numbers) % 2:
        raise BadFile(f"{name}:{at}: a polyline has pairs of whole coordinates, four at least")
    return list(zip(numbers[::2], numbers[1::2]))


def plans_of(name):
    """The layers of a printing program: each path leads on from the travel to its first point."""
    layer, at, path, to = None, (0, 0), [], "walls"
    with open(name, "rb") as file:
        for line_at, line in enumerate(file, 1):
            found = MOVE.match(line)
            if found and layer:
                point = micrometres(found[1], found[2]), micrometres(found[3], found[4])
                if found[5]:
                    path.append(point)
                else:
                    keep(layer, path, to)
                    layer.travels.append([at, point])
                    path = [point]
                at = point
            elif line.startswith(b"; layer "):
                if layer:
                    keep(layer, path, to)
                    yield layer
                layer, path, to = Layer(whole(name, line_at, line[8:])), [], "walls"
            elif line.startswith(b"; supports") and layer:
                keep(layer, path, to)
                path, to = [], "supports"
            elif layer and (height := HEIGHT.match(line)):
                layer.z = micrometres(height[1], height[2])
            elif line[:1] not in (b"G", b"M", b";", b"\n", b"\r"):
                raise BadFile(f"{name}:{line_at}: no line of a printing program")
    if layer:
        keep(layer, path, to)
        yield layer


def keep(layer, path, to):
    """Adds a path to its kind: one that ends where it begins is a wall, any other infill."""
    if len(path) > 1:
        is_closed = len(path) > 3 and path[0] == path[-1]
        kind = to if to == "supports" or is_closed else "infill"
        getattr(layer, kind).append(path)


def whole(name, at, text):
    try:
        return int(text)
    except ValueError:
        raise BadFile(f"{name}:{at}: a whole number is missing") from None


def micrometres(millimetres, decimals):
    part = int(decimals)
    return int(millimetres) * 1000 + (-part if millimetres.startswith(b"-") else part)


class Extent:
    """The least box around all that is drawn, and how many layers there are."""

    def __init__(self, layers):
        self.layers = 0
        xs, ys = [], []
        for layer in layers:
            self.layers += 1
            points = [it for path in layer.outlines + layer.walls + layer.infill + layer.supports for it in path]
            if points:
                xs += [min(x for x, _ in points), max(x for x, _ in points)]
                ys += [min(y for _, y in points), max(y for _, y in points)]
                xs, ys = [min(xs), max(xs)], [min(ys), max(ys)]
        self.left, self.right = xs or (0, 10_000)
        self.low, self.high = ys or (0, 10_000)
