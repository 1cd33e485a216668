"""The three views of a part: one layer, a sheet of all layers in small, and a page with a slider. Each is a
generator of lines, and holds one layer at a time."""

import json
import math

import canvas
from toolpaths import BadFile

# Pixels of the longer side of one layer, of a layer on a sheet, and of the page's drawing.
LARGE, SMALL, PAGE = 800, 120, 900


def one(layers, extent, number):
    """The drawing of one layer."""
    layer = next((it for it in layers() if it.number == number), None)
    if layer is None:
        raise BadFile(f"there is no layer {number}: the layers are 0 to {extent.layers - 1}")
    frame = canvas.Frame(extent, LARGE)
    yield canvas.svg(frame.width, frame.height)
    yield from canvas.grid(frame)
    yield frame.opened()
    yield from canvas.drawn(layer, frame)
    yield "</g>"
    told = f"{canvas.caption(layer, extent.layers)}:{canvas.legend(layer)}"
    yield text(canvas.MARGIN, frame.height - 12, 12, told)
    yield "</svg>"


def sheet(layers, extent):
    """A drawing of all layers in small, row by row, each with its number and height."""
    frame = canvas.Frame(extent, SMALL, margin=6, foot=12)
    columns = max(1, min(extent.layers, round(math.sqrt(extent.layers * frame.height / frame.width * 1.5))))
    rows = -(-extent.layers // columns)
    yield canvas.svg(columns * frame.width, rows * frame.height)
    for layer in layers():
        at = layer.number % columns * frame.width, layer.number // columns * frame.height
        yield f'<g transform="translate({at[0]} {at[1]})">{frame.opened()}'
        yield from canvas.drawn(layer, frame, ("outlines", "supports", "infill", "walls"))
        z = "" if layer.z is None else f" · {layer.z / 1000:g}"
        yield "</g>" + text(6, frame.height - 4, 8, f"{layer.number}{z}") + "</g>"
    yield "</svg>"


def text(x, y, size, told):
    return f'<text x="{x}" y="{y}" font-family="sans-serif" font-size="{size}" fill="#212529">{told}</text>'


HEAD = """<!DOCTYPE html>
<html lang="en"><head><meta charset="utf-8"><title>Layers</title>
<style>
body { font-family: sans-serif; margin: 1em; color: #212529 }
#slider { width: 100%% }
svg { max-width: 100%%; height: auto; border: 1px solid #dee2e6 }
label { margin-right: 1em }
</style></head><body>
<p><input type="range" id="slider" min="0" max="%d" value="0" autofocus></p>
<p><span id="told"></span></p>
<p>%s</p>"""

SCRIPT = """<script>
const slider = document.getElementById("slider"), told = document.getElementById("told");
const view = document.querySelector("svg"), whole = view.getAttribute("viewBox").split(" ").map(Number);
function show() {
  const [caption, paths] = layers[slider.value] || ["no layer", {}];
  told.textContent = caption;
  for (const kind of kinds) {
    const path = document.getElementById(kind), box = document.getElementById("show-" + kind);
    path.setAttribute("d", box.checked && paths[kind] || "");
  }
}
// The wheel draws the place under it nearer or further away.
view.addEventListener("wheel", event => {
  event.preventDefault();
  const [x, y, wide, high] = view.getAttribute("viewBox").split(" ").map(Number);
  const by = event.deltaY < 0 ? 0.8 : 1.25, at = view.getBoundingClientRect();
  const across = (event.clientX - at.left) / at.width, down = (event.clientY - at.top) / at.height;
  const next = wide * by >= whole[2] ? whole
    : [x + wide * across * (1 - by), y + high * down * (1 - by), wide * by, high * by];
  view.setAttribute("viewBox", next.join(" "));
}, { passive: false });
slider.addEventListener("input", show);
document.querySelectorAll("input[type=checkbox]").forEach(box => box.addEventListener("input", show));
show();
</script></body></html>"""


def page(layers, extent):
    """A page that shows the layer under a slider. It has all layers in itself and loads nothing."""
    frame = canvas.Frame(extent, PAGE, foot=0)
    box = '<label><input type="checkbox" id="show-{0}" checked> <span style="color:{1}">{0}</span></label>'.format
    yield HEAD % (max(0, extent.layers - 1), " ".join(box(kind, it[0]) for kind, it in canvas.KINDS.items()))
    yield canvas.svg(frame.width, frame.height)
    yield from canvas.grid(frame)
    yield frame.opened()
    for kind in canvas.KINDS:
        yield f'<path id="{kind}" fill-rule="nonzero" {canvas.style(kind, frame)}/>'
    yield "</g></svg>"
    yield f"<script>const kinds = {json.dumps(list(canvas.KINDS))}, layers = ["
    for layer in layers():
        yield json.dumps([canvas.caption(layer, extent.layers), canvas.of_layer(layer)], separators=(",", ":")) + ","
    yield "];</script>"
    yield SCRIPT
