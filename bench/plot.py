"""Draws times over sizes: a panel for each kind of session, a line for each program."""

import html
import typing

WIDTH, HEIGHT, COLUMNS = 300, 210, 3
LEFT, RIGHT, TOP, BOTTOM = 58, 20, 34, 40
COLOURS = ["#1f6feb", "#8c959f"]
STYLE = """<style>
text { font: 12px sans-serif; fill: #24292f } .title { font-weight: bold } .small { fill: #57606a; font-size: 11px }
.axis { stroke: #8c959f; fill: none } .line { fill: none; stroke-width: 2 }
</style>"""


class Panel(typing.NamedTuple):
    """A title, what the sizes count, and for each program its points: a size and a time in milliseconds."""

    title: str
    unit: str
    curves: list


def label(number):
    """A number of at most three figures, or with commas."""
    return f"{number:,.0f}" if number >= 100 else f"{number:.3g}"


def text(x, y, words, style="", anchor="start"):
    return f'<text x="{x:.1f}" y="{y:.1f}" class="{style}" text-anchor="{anchor}">{html.escape(words)}</text>'


def panel_lines(panel):
    """A panel's drawing, from its own corner."""
    points = [point for curve in panel.curves for point in curve]
    widest, longest = max(size for size, _ in points), max(time for _, time in points) or 1
    across, down = WIDTH - LEFT - RIGHT, HEIGHT - TOP - BOTTOM
    bottom = TOP + down
    yield text(LEFT, TOP - 14, panel.title, "title")
    yield f'<path class="axis" d="M{LEFT} {TOP} V{bottom} H{LEFT + across}"/>'
    yield text(LEFT - 6, TOP + 5, f"{label(longest)} ms", "small", "end")
    yield text(LEFT - 6, bottom + 4, "0", "small", "end")
    yield text(LEFT + across, bottom + 16, f"{label(widest)} {panel.unit}", "small", "end")
    for colour, curve in zip(COLOURS, panel.curves):
        places = [(LEFT + across * size / widest, bottom - down * time / longest) for size, time in curve]
        spelled = " ".join(f"{x:.1f},{y:.1f}" for x, y in places)
        yield f'<polyline class="line" stroke="{colour}" points="{spelled}"/>'
        yield from (f'<circle cx="{x:.1f}" cy="{y:.1f}" r="3" fill="{colour}"/>' for x, y in places)


def drawing(panels, names):
    """The whole drawing: the names of the programs, and below them the panels in rows."""
    rows = -(-len(panels) // COLUMNS)
    width, height = WIDTH * min(COLUMNS, len(panels)), HEIGHT * rows + 30
    out = [f'<svg xmlns="http://www.w3.org/2000/svg" width="{width}" height="{height}" viewBox="0 0 {width} {height}">',
           STYLE, f'<rect width="{width}" height="{height}" fill="#ffffff"/>']
    for place, (colour, name) in enumerate(zip(COLOURS, names)):
        out += [f'<rect x="{LEFT + 150 * place}" y="10" width="12" height="12" fill="{colour}"/>',
                text(LEFT + 150 * place + 18, 20, name)]
    for place, panel in enumerate(panels):
        corner = f"translate({WIDTH * (place % COLUMNS)} {30 + HEIGHT * (place // COLUMNS)})"
        out += [f'<g transform="{corner}">', *panel_lines(panel), "</g>"]
    return "\n".join(out + ["</svg>", ""])
