"""Draws a figure of panels as SVG. Each panel has a few curves over one axis.

Each curve has its own colour, dash and mark, so that no reader depends on one of them. The figure
has its own background, and other colours on a dark page.
"""
import math
from html import escape

WIDTH, HEIGHT, GAP, TOP = 430, 270, 14, 70
LEFT, RIGHT, ABOVE, BELOW = 94, 22, 40, 52
STYLE = """
  text { font-family: sans-serif; font-size: 13px; fill: #24292f }
  .title { font-size: 15px; font-weight: bold }
  .back { fill: #ffffff }
  .grid { stroke: #d8dee4; stroke-width: 1 }
  .axis { stroke: #57606a; stroke-width: 1 }
  .curve { fill: none; stroke-width: 2.5 }
  .c0 { stroke: #0969da } .m0 { fill: #0969da }
  .c1 { stroke: #bc4c00; stroke-dasharray: 7 4 } .m1 { fill: #bc4c00 }
  @media (prefers-color-scheme: dark) {
    text { fill: #e6edf3 }
    .back { fill: #0d1117 }
    .grid { stroke: #30363d }
    .axis { stroke: #8b949e }
    .c0 { stroke: #58a6ff } .m0 { fill: #58a6ff }
    .c1 { stroke: #f0883e } .m1 { fill: #f0883e }
  }
"""


def ticks(most, units, power):
    """Returns up to six round numbers from 0 on. The last one is at least `most`."""
    raw = max(most, power) / 5
    scale = power ** math.floor(math.log(raw, power))
    step = next(unit * scale for unit in units if unit * scale >= raw)
    return [step * number for number in range(max(1, math.ceil(most / step)) + 1)]


def words(x, y, text, anchor="middle", more=""):
    return f'<text x="{x:.1f}" y="{y:.1f}" text-anchor="{anchor}"{more}>{escape(text)}</text>'


def line(kind, x1, y1, x2, y2):
    return f'<line class="{kind}" x1="{x1:.1f}" y1="{y1:.1f}" x2="{x2:.1f}" y2="{y2:.1f}"/>'


def mark(number, x, y):
    """Returns a dot for the first curve, a square for the second."""
    if number == 0:
        return f'<circle class="m0" cx="{x:.1f}" cy="{y:.1f}" r="4"/>'
    return f'<rect class="m1" x="{x - 3.5:.1f}" y="{y - 3.5:.1f}" width="7" height="7"/>'


def panel(left, top, title, across, up, xs, curves):
    """Returns the elements of a panel: its axes with their labels, and its curves."""
    along = ticks(max(xs), (1, 2), 2)
    high = ticks(max(map(max, curves)), (1, 2, 5, 10), 10)
    begin, low = left + LEFT, top + HEIGHT - BELOW
    wide, tall = WIDTH - LEFT - RIGHT, HEIGHT - ABOVE - BELOW

    def at(x, y):
        return begin + wide * x / along[-1], low - tall * y / high[-1]

    made = [words(begin, top + 22, title, "start", ' class="title"')]
    for y in high:
        made.append(line("grid", *at(0, y), *at(along[-1], y)))
        made.append(words(begin - 8, at(0, y)[1] + 4, f"{y:,.0f}", "end"))
    for x in along:
        down = at(x, 0)[0]
        made += [line("axis", down, low, down, low + 5), words(down, low + 19, f"{x:g}")]
    made += [line("axis", *at(0, 0), *at(along[-1], 0)), line("axis", *at(0, 0), *at(0, high[-1]))]
    made.append(words(begin + wide / 2, low + 40, across))
    turned = f' transform="rotate(-90 {left + 20} {low - tall / 2:.1f})"'
    made.append(words(left + 20, low - tall / 2, up, "middle", turned))
    for number, ys in enumerate(curves):
        points = [at(x, y) for x, y in zip(xs, ys)]
        path = " ".join(f"{x:.1f},{y:.1f}" for x, y in points)
        made.append(f'<polyline class="curve c{number}" points="{path}"/>')
        made += [mark(number, x, y) for x, y in points]
    return made


def figure(title, names, panels):
    """Returns the SVG of these panels, two side by side, below a title and the names of the curves."""
    rows = (len(panels) + 1) // 2
    wide, tall = 2 * WIDTH + GAP, TOP + rows * HEIGHT + (rows - 1) * GAP
    made = [
        f'<svg xmlns="http://www.w3.org/2000/svg" viewBox="0 0 {wide} {tall}" role="img">',
        f"<title>{escape(title)}</title>",
        f"<style>{STYLE}</style>",
        f'<rect class="back" width="{wide}" height="{tall}"/>',
        words(LEFT, 28, title, "start", ' class="title"'),
    ]
    at = LEFT
    for number, name in enumerate(names):
        made.append(f'<polyline class="curve c{number}" points="{at},50 {at + 36},50"/>')
        made += [mark(number, at + 18, 50), words(at + 44, 54, name, "start")]
        at += 70 + 8 * len(name)
    for number, parts in enumerate(panels):
        down, right = divmod(number, 2)
        made += panel(right * (WIDTH + GAP), TOP + down * (HEIGHT + GAP), *parts)
    return "\n".join([*made, "</svg>", ""])
