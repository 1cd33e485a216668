"""A drawing in SVG: where a part lies on it, its grid, and the paths of a layer, in whole micrometres."""

# Colours and widths, in pixels, of what a layer has; in the order in which they are drawn.
KINDS = {
    "outlines": ("#1f2933", 1.0),
    "supports": ("#2f9e44", 1.2),
    "infill": ("#e8590c", 1.2),
    "walls": ("#1971c2", 1.4),
    "travels": ("#868e96", 0.5),
}
FILL, PAPER, FINE, COARSE = "#ffe8a3", "#ffffff", "#e9ecef", "#adb5bd"
MARGIN, FOOT = 30, 14


class Frame:
    """A part's box laid onto a drawing of at most so many pixels each way."""

    def __init__(self, extent, most, margin=MARGIN, foot=FOOT):
        wide, high = max(1, extent.right - extent.left), max(1, extent.high - extent.low)
        self.extent, self.margin = extent, margin
        self.scale = (most - 2 * margin) / max(wide, high)
        self.width = round(wide * self.scale) + 2 * margin
        self.height = round(high * self.scale) + 2 * margin + foot

    def across(self, x):
        return self.margin + (x - self.extent.left) * self.scale

    def down(self, y):
        return self.margin + (self.extent.high - y) * self.scale

    def pixels(self, width):
        """A width of so many pixels, in micrometres of the part."""
        return number(width / self.scale)

    def opened(self):
        """The group in which paths in micrometres lie, with y upwards."""
        return f'<g transform="matrix({self.scale:.6g} 0 0 {-self.scale:.6g} ' \
               f'{number(self.across(0))} {number(self.down(0))})">'


def number(value):
    """A number with at most two decimals."""
    return f"{value:.2f}".rstrip("0").rstrip(".")


def data(paths, is_closed=False):
    """The path data of paths, each point but the first by its distance from the one before."""
    told = []
    for path in paths:
        (x, y), *rest = path[:-1] if is_closed else path
        told.append(f"M{x} {y}")
        if rest:
            told.append("l" + " ".join(f"{b - x} {d - y}" for (x, y), (b, d) in zip([(x, y), *rest], rest)))
        told.append("z" * is_closed)
    return "".join(told)


def of_layer(layer):
    """The path data of each kind that a layer has."""
    return {kind: data(getattr(layer, kind), kind == "outlines") for kind in KINDS if getattr(layer, kind)}


def style(kind, frame):
    colour, width = KINDS[kind]
    fill = f'"{FILL}" fill-opacity="0.6"' if kind == "outlines" else '"none"'
    return f'fill={fill} stroke="{colour}" stroke-width="{frame.pixels(width)}" stroke-linejoin="round"'


def drawn(layer, frame, kinds=KINDS):
    """The elements of a layer; outlines are filled where they wind round."""
    for kind, text in of_layer(layer).items():
        if kind in kinds:
            yield f'<path fill-rule="nonzero" {style(kind, frame)} d="{text}"/>'


def grid(frame):
    """Lines for each millimetre and, darker and with numbers, for each ten; for a larger part ten times as far."""
    extent = frame.extent
    fine = 1000
    while max(extent.right - extent.left, extent.high - extent.low) / fine > 120:
        fine *= 10
    for step, colour in ((fine, FINE), (10 * fine, COARSE)):
        columns = [number(frame.across(x)) for x in lines(extent.left, extent.right, step)]
        rows = [number(frame.down(y)) for y in lines(extent.low, extent.high, step)]
        top, left = frame.margin, frame.margin
        low, right = number(frame.down(extent.low)), number(frame.across(extent.right))
        text = "".join(f"M{x} {top}V{low}" for x in columns) + "".join(f"M{left} {y}H{right}" for y in rows)
        yield f'<path fill="none" stroke="{colour}" stroke-width="0.6" d="{text}"/>'
    yield '<g font-family="sans-serif" font-size="10" fill="#495057">'
    for x in lines(extent.left, extent.right, 10 * fine):
        yield f'<text x="{number(frame.across(x))}" y="{frame.margin - 8}" text-anchor="middle">{x // 1000}</text>'
    for y in lines(extent.low, extent.high, 10 * fine):
        yield f'<text x="{frame.margin - 6}" y="{number(frame.down(y) + 3)}" text-anchor="end">{y // 1000}</text>'
    yield "</g>"


def lines(first, last, step):
    """The multiples of a step from first to last."""
    return range(-(-first // step) * step, last + 1, step)


def legend(layer):
    """The names of what a layer has, each in its colour."""
    there = ((kind, colour) for kind, (colour, _) in KINDS.items() if getattr(layer, kind))
    return "".join(f' <tspan fill="{colour}">{kind}</tspan>' for kind, colour in there)


def svg(width, height):
    return f'<svg xmlns="http://www.w3.org/2000/svg" width="{width}" height="{height}" ' \
           f'viewBox="0 0 {width} {height}">\n<rect width="100%" height="100%" fill="{PAPER}"/>'


def caption(layer, of):
    """What is told of a layer in one line."""
    z = "not told" if layer.z is None else f"{layer.z / 1000:.3f} mm"
    told = f"layer {layer.number} of {of}, z = {z}, {len(layer.outlines)} outlines"
    return told + (f", {layer.moves()} moves" if layer.travels else "")
