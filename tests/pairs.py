"""Pairs of outlines and a printing program, made by dice: small ones, with what may be wrong with such files, and single moves
by outlines that cross.

The pair of a number is always the same. What `verify` says of each stands in `verdicts/pairs` and `verdicts/moves`.
"""

import random

HEAD = ["$$HEADERSTART", "$$ASCII", "$$UNITS/0.001", "$$VERSION/200"]
WIDTHS = [100, 101, 250, 449, 450, 450, 800, 2000]
CELL, ROOM = 12000, 10000
# Lines that aren't of the form of a printing program, and such as change the place or the amount.
REFUSED = ["G2 X1 Y1", "M73 P1", "G1 X", "G1 X1.2345", "G1 X1 X2", "G1 X+1", "G28 X0", "g1 X1", "G1\tX1", "G1 S1", "M83",
           "G1 X1101", "G1 E0.123456", "G1X1", "G92 F1", "T0"]
STILL = ["; a comment", "", "   ", "M107", "G21", "M104 S200", "G1 F1800", "G92 E0", "G90 ; absolute"]


class Dice:
    """Numbers by chance, the same for each seed and each version of Python."""

    def __init__(self, seed):
        self.chance = random.Random(seed).random

    def below(self, count):
        return int(self.chance() * count)

    def within(self, least, most):
        return least + self.below(most - least + 1)

    def one_of(self, things):
        return things[self.below(len(things))]

    def once_in(self, count):
        return self.below(count) == 0


def pair(number):
    """The outlines, the printing program and the line's width of a number."""
    dice = Dice(number)
    width, is_calm = dice.one_of(WIDTHS), dice.below(5) < 3
    layers = layers_of(dice, is_calm)
    outlines, program = outlines_of(dice, layers), program_of(dice, layers, width // 2, is_calm)
    return written(dice, outlines), written(dice, program), width


def move_pair(number):
    """Outlines that cross themselves and one another, a short move by chance, and the thinnest line's width."""
    dice = Dice(number)
    loops = [crossing_loop(dice) for _ in range(dice.within(3, 5))]
    x, y = dice.within(-4000, 4000), dice.within(-4000, 4000)
    writer = Writer(dice)
    writer.go(Z=200)
    writer.path([(x, y), (x + dice.within(-400, 400), y + dice.within(-400, 400))])
    return written(dice, outlines_of(dice, [(200, loops)])), written(dice, writer.lines), 100


def crossing_loop(dice):
    return [(dice.within(-4000, 4000), dice.within(-4000, 4000)) for _ in range(dice.within(3, 6))]


def written(dice, lines):
    end = "\r\n" if dice.once_in(6) else "\n"
    text = "".join(line + end for line in lines)
    return (text.removesuffix(end) if dice.once_in(6) else text).encode()


# The outlines

def layers_of(dice, is_calm):
    """Heights with their loops. In calm pairs each loop is convex and has a cell of its own."""
    layers, z = [], 0
    for _ in range(dice.within(1, 3)):
        z += dice.one_of([1, 199, 200, 200, 200])
        make = calm_loop if is_calm else any_loop
        layers.append((z, [make(dice, cell) for cell in range(dice.within(0 if dice.once_in(4) else 1, 3))]))
    return layers


def calm_loop(dice, cell):
    x, y = dice.within(0, 500) + CELL * cell, dice.within(-500, 500)
    a, b = dice.within(6000, ROOM), dice.within(6000, ROOM)
    cut = 0 if dice.once_in(2) else dice.within(1, 2900)
    box = [(x + cut, y), (x + a, y), (x + a, y + b - cut), (x + a - cut, y + b), (x, y + b), (x, y + cut)]
    loop = [it for at, it in enumerate(box) if it != box[at - 1]] if cut else [(x, y), (x + a, y), (x + a, y + b), (x, y + b)]
    return loop[::-1] if dice.once_in(4) else loop


def any_loop(dice, _cell):
    return [(dice.within(-1000, 13000), dice.within(-1000, 13000)) for _ in range(dice.within(3, 7))]


def outlines_of(dice, layers):
    lines = [*HEAD, f"$$LAYERS/{len(layers)}", "$$HEADEREND", "$$GEOMETRYSTART"]
    for z, loops in layers:
        lines.append(f"$$LAYER/{z}")
        for loop in loops:
            numbers = ",".join(f"{x},{y}" for x, y in [*loop, loop[0]])
            lines.append(f"$$POLYLINE/1,{dice.below(2)},{len(loop) + 1},{numbers}")
        if dice.once_in(3):
            lines.append(f"$$HATCHES/1,1,{dice.below(9999)},{dice.below(9999)},{dice.below(9999)},{dice.below(9999)}")
    lines.append("$$GEOMETRYEND")
    return spoilt(dice, lines) if dice.once_in(8) else lines


def spoilt(dice, lines):
    """A line is lost, doubled or moved, or a sign of it is another one."""
    at = dice.below(len(lines))
    line, rest = lines[at], lines[:at] + lines[at + 1:]
    sign = dice.below(len(line))
    other = line[:sign] + dice.one_of(list("0123456789,.-/")) + line[sign + 1:]
    to = dice.below(len(lines))
    return dice.one_of([rest, lines[:at] + [line] + lines[at:], rest[:to] + [line] + rest[to:],
                        *[lines[:at] + [other] + lines[at + 1:]] * 3])


# The printing program

def program_of(dice, layers, half, is_calm):
    writer = Writer(dice)
    writer.lines = ["G21", "G90", "M82", "G28", "G92 E0"][dice.below(5):]
    for z, loops in layers:
        if dice.once_in(6):
            continue
        writer.go(Z=z + (dice.within(-1, 1) if dice.once_in(12) else 0))
        for loop in loops:
            path_in(dice, writer, loop, half, is_calm)
    if dice.once_in(8):
        writer.lines.insert(dice.below(len(writer.lines) + 1), dice.one_of(REFUSED))
    return writer.lines


def path_in(dice, writer, loop, half, is_calm):
    """A loop along the sides as far away as half a line or a little more, moves to and fro, or moves by chance."""
    xs, ys = [x for x, _ in loop], [y for _, y in loop]
    ends = min(xs), max(xs), min(ys), max(ys)
    apart = half + (dice.within(-2, 2) if dice.once_in(20) else dice.one_of([0, 0, 1, 50, 500]))
    inner = ends[0] + apart, ends[1] - apart, ends[2] + apart, ends[3] - apart
    kind = dice.below(4)
    if kind == 0:
        reach = inner if is_calm and len(loop) == 4 else [(3 * it + mean) // 4 for it, mean in zip(inner, middle(ends))]
        corners = [(reach[0], reach[2]), (reach[1], reach[2]), (reach[1], reach[3]), (reach[0], reach[3])]
        writer.path([*corners, corners[0]])
    elif kind == 1:
        y = (ends[2] + ends[3]) // 2 + dice.within(-9, 9)
        writer.path([(inner[0], y), (inner[1], y)])
    elif kind == 2:
        x = (ends[0] + ends[1]) // 2 + dice.within(-9, 9)
        writer.path([(x, inner[3]), (x, inner[2]), (x, inner[3])])
    else:
        a, b, c, d = [(it + mean) // 2 for it, mean in zip(inner, middle(ends))]
        points = [(dice.within(min(a, b), max(a, b)), dice.within(min(c, d), max(c, d))) for _ in range(4)]
        writer.path(points if not dice.once_in(8) else [*points, (dice.within(-2000, 14000), dice.within(-2000, 14000))])


def middle(ends):
    across, up = (ends[0] + ends[1]) // 2, (ends[2] + ends[3]) // 2
    return across, across, up, up


class Writer:
    """Lines of a printing program, each in one of the ways in which it may be written."""

    def __init__(self, dice):
        self.dice, self.lines, self.amount = dice, [], 0

    def go(self, **places):
        self.line([f"{axis}{self.number(it, 3)}" for axis, it in places.items()])

    def path(self, points):
        dice = self.dice
        self.go(X=points[0][0], Y=points[0][1])
        for x, y in points[1:]:
            self.amount += dice.one_of([0, 1, 4471, 100000])
            self.line([f"X{self.number(x, 3)}", f"Y{self.number(y, 3)}", f"E{self.number(self.amount, 5)}"])
        if dice.once_in(4):
            self.line([f"E{self.number(self.amount - 50000, 5)}"])
            self.go(X=dice.within(-9000, 9000), Y=dice.within(-9000, 9000))
            self.line([f"E{self.number(self.amount, 5)}"])

    def line(self, words):
        dice = self.dice
        words = words + [f"F{dice.within(1, 9999)}"] * dice.once_in(3)
        words = words[::-1] if dice.once_in(5) else words
        command = "G0" if dice.once_in(5) else "G1"
        self.lines.append((" " * dice.once_in(9) + " ".join([command, *words]) + "  ; moves" * dice.once_in(9)))
        if dice.once_in(6):
            still = dice.one_of(STILL)
            self.amount = 0 if still == "G92 E0" else self.amount
            self.lines.append(still)

    def number(self, value, places):
        text = f"{'-' if value < 0 else ''}{abs(value) // 10**places}.{abs(value) % 10**places:0{places}}"
        return text.rstrip("0").rstrip(".") if self.dice.once_in(3) else text
