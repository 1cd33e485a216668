# the numbers of the random fronts, outlines and toolpaths of outline_samples, by scadref; of the toolpaths with the square first (to
# compare), then with the octagon
import sys
sys.path.insert(0, __import__("os").environ["SCADREF"])
from collections import namedtuple
from math import floor
from scadref import outlines as scad, toolpath
from scadref.toolpath import wall, runs_plain
P=namedtuple('P','octagon')


class Dice:
    def __init__(self, seed):
        self.s = seed

    def roll(self, below):
        self.s = (self.s * 6364136223846793005 + 1442695040888963407) % 2**64
        return (self.s >> 33) % below


# numbers

def nw(before, part):
    return (before * 10007 + part) % 1000000007


def with_points(n, points):
    n = nw(n, len(points))
    for x, y in points:
        n = nw(nw(n, x), y)
    return n


def with_loops(n, loops):
    n = nw(n, len(loops))
    for l in loops:
        n = with_points(n, l)
    return n


def with_pieces(n, pieces):
    n = nw(n, len(pieces))
    for a, b, name in pieces:
        for x, y in (a, b):
            n = nw(nw(n, floor(x * 1000)), floor(y * 1000))
        n = nw(n, name)
    return n


# what is rolled

def outlines(d, least, side):
    return [[(least + d.roll(side), least + d.roll(side)) for _ in range(3 + d.roll(4))] for _ in range(1 + d.roll(3))]


def coordinate(d, side, places):
    k = d.roll(side)
    return (k - 500000, k * 7 - 500000, k * 100000 - 500000, 1000000 - k, 1000000 - k * 200000)[places]


def point(d, side, places):
    return coordinate(d, side, places), coordinate(d, side, places)


def roll_edges(d, least, more):
    count, side, places = least + d.roll(more), 2 + d.roll(8), 3 + d.roll(2)
    return [(0, point(d, side, places), point(d, side, places)) for _ in range(count)]


def roll_outline(d, side, places, last):
    kind = d.roll(8)
    if kind == 0:
        return last
    if kind == 1:
        return last[::-1]
    if kind < 4:
        (px, py), (qx, qy) = point(d, side, places), point(d, side, places)
        return [(px, py), (qx, py), (qx, qy), (px, qy)]
    return [point(d, side, places) for _ in range(1 + d.roll(6))]


def roll_sides(d, most):
    side, places, count, outline, edges = 2 + d.roll(9), d.roll(5), 1 + d.roll(most), [], []
    for _ in range(count):
        outline = roll_outline(d, side, places, outline)
        leaf = d.roll(5)
        edges += [(leaf, a, b) for a, b in zip(outline, outline[1:] + outline[:1])]
    return edges


def roll_leaves(d):
    return [leaf(d.roll(5)) for _ in range(d.roll(3))]


def roll_over(d, shape):
    kind, members = d.roll(8), roll_leaves(d)
    if kind < 2:
        return difference(shape, members)
    members.append(shape)
    if kind < 6:
        return union(members)
    return inter(members) if kind == 6 else difference(leaf(d.roll(5)), members)


def roll_shape(d):
    kind = d.roll(12)
    shape = EMPTY if kind == 0 else union(roll_leaves(d)) if kind == 1 else inter(roll_leaves(d)) if kind == 2 else leaf(d.roll(5))
    for _ in range(d.roll(8)):
        shape = roll_over(d, shape)
    return shape


EMPTY = ("empty",)
leaf, union, inter = (lambda k: ("leaf", k)), (lambda m: ("union", m)), (lambda m: ("inter", m))
difference = lambda first, rest: ("diff", first, rest)


# what is told

def bundles(seed, least, more):
    edges, number = roll_edges(Dice(seed), least, more), 0
    levels = scad.levels_plain(edges)
    for lower, upper in zip(levels, levels[1:]):
        found = scad.bundles_plain(edges, lower, upper)
        n = len(found)
        for bundle in found:
            for edge in bundle:
                n = nw(n, edge + 1)
            n = nw(n, 0)
        number = nw(number, n)
    return number


def border(seed, most, with_border):
    d = Dice(seed)
    edges, shape = roll_sides(d, most), roll_shape(d)
    number = with_pieces(0, scad.pieces_plain(edges, shape)) if with_border else 0
    # an edge of no length makes a height at most, over which pieces are merged again
    some = [e for e in edges if e[1] != e[2]]
    loops = scad.outlines(some, shape) if some else []
    return with_loops(with_loops(number, loops), loops)


def walls(oct):
    n=0
    for seed in range(40):
        d=Dice(seed); o=outlines(d,0,300); c=1+d.roll(20)
        for l in wall(o,c,P(oct)):
            n=nw(n,len(l))
            for x,y in l: n=nw(n,x*300+y)
    return n
def runs(oct):
    n=0
    for seed in range(100):
        d=Dice(seed); o=outlines(d,0,300); c=d.roll(12); at=60+d.roll(180); least=d.roll(30)
        for col in (False,True):
            for a,b in runs_plain(o,c,col,at,least,oct): n=nw(n,a*300+b+1)
    return n
S=namedtuple('S','line_width walls infill_spacing')
def plans(oct):
    n=0
    for seed in range(100):
        d=Dice(seed); o=outlines(d,-2000,4000)
        w=100+d.roll(60); k=1+d.roll(3); sp=40+d.roll(400); layer=d.roll(2)
        pl=toolpath.plan(o,layer,S(w,k,sp),P(oct))
        for path in [list(l)+[l[0]] for l in pl.loops]+[list(r) for r in pl.runs]:
            for x,y in path: n=nw(n,x*4000+y+1)
            n=(n+7)%1000000007
        n=nw(n,len(pl.runs))
    return n


def together(numbers):
    n = 0
    for it in numbers:
        n = nw(n, it)
    return n


if __name__ == '__main__':
    for oct in (False, True):
        if 'walls' in sys.argv: print('walls', oct, walls(oct), flush=True)
        if 'plans' in sys.argv: print('plans', oct, plans(oct), flush=True)
        if 'runs' in sys.argv: print('runs', oct, runs(oct), flush=True)
    if 'fronts' in sys.argv:
        print('fronts', [together(bundles(100 * i + k, 2, 14) for k in range(1, 101)) for i in range(15)], flush=True)
        print('long', [(s, bundles(s, 400, 100)) for s in (1506, 1514, 1530, 1538)], flush=True)
    if 'outlines' in sys.argv:
        print('outlines', [together(border(100 * i + k, 8, i < 2) for k in range(1, 101)) for i in range(30)], flush=True)
        print('long', [border(s, 60, False) for s in range(3001, 3021)], flush=True)
