"""Pictures: of ratios, with a bar for each kind of statement and each size of the tables; and charts of lines."""

import math
from xml.sax.saxutils import escape

LEFT, WIDTH, BAR, GAP, TOP = 240, 480, 9, 10, 60
COLOURS = ["#1b4965", "#2f7ca3", "#62b6cb", "#a9d6e5", "#cfe8ef"]
# A ratio of this is as long as the picture is wide; longer bars are cut, and their number tells.
MOST = 2.4


def bar(y, ratio, colour):
    width = min(ratio, MOST) / MOST * WIDTH
    return (
        f'<rect x="{LEFT}" y="{y}" width="{width:.1f}" height="{BAR}" fill="{colour}"/>'
        f'<text x="{LEFT + width + 4:.1f}" y="{y + BAR - 1}" font-size="9">{ratio:.2f}</text>'
    )


def line(ratio, bottom):
    x = LEFT + ratio / MOST * WIDTH
    return (
        f'<line x1="{x:.1f}" y1="{TOP - 8}" x2="{x:.1f}" y2="{bottom}" stroke="#999" stroke-dasharray="3 3"/>'
        f'<text x="{x:.1f}" y="{TOP - 12}" font-size="10" text-anchor="middle">{ratio:g}</text>'
    )


def legend(sizes):
    for i, rows in enumerate(sizes):
        x = LEFT + i * 120
        yield f'<rect x="{x}" y="14" width="10" height="10" fill="{COLOURS[i]}"/>'
        yield f'<text x="{x + 14}" y="23" font-size="11">{rows:,} rows</text>'


def picture(figures):
    """Ratios of mmdb to sqlite3, so that shorter is faster."""
    sizes = sorted({f.rows for f in figures})
    kinds = list(dict.fromkeys(f.what for f in figures))
    ratios = {(f.what, f.rows): f.ratio for f in figures}
    parts, y = list(legend(sizes)), TOP
    for kind in kinds:
        middle = y + len(sizes) * BAR / 2 + 4
        parts.append(f'<text x="{LEFT - 8}" y="{middle}" font-size="12" text-anchor="end">{escape(kind)}</text>')
        for i, rows in enumerate(sizes):
            if (kind, rows) in ratios:
                parts.append(bar(y, ratios[kind, rows], COLOURS[i]))
            y += BAR
        y += GAP
    parts += [line(0.2, y), line(1, y)]
    head = f'<svg xmlns="http://www.w3.org/2000/svg" width="{LEFT + WIDTH + 60}" height="{y + 10}" font-family="sans-serif">'
    return head + "\n".join(["", '<rect width="100%" height="100%" fill="white"/>', *parts, "</svg>"]) + "\n"


# A chart's panels stand side by side, each with its axes.
PANEL, HEIGHT, BETWEEN, HEAD = 280, 240, 60, 30
LINES = ["#d1495b", "#66a182", "#edae49", "#8d5a97", "#2f9ec4", "#c26a1b", "#5b7f2b", "#b5739d"]
# Lines of these names have colours of their own in each chart; those of SQLite are grey.
OWN = {"auto": "#12304a"}
GREYS = ["#444444", "#999999"]


class Axis:
    """Where values lie between two ends of a line, by themselves or by their logarithms."""

    def __init__(self, values, is_log, start, end, parts=(1, 2, 5)):
        self.is_log, self.start, self.end = is_log, start, end
        self.ticks = logarithmic(min(values), max(values), parts) if is_log else linear(max(values))
        self.least, self.most = (math.log10(tick) if is_log else tick for tick in (self.ticks[0], self.ticks[-1]))

    def at(self, value):
        share = ((math.log10(value) if self.is_log else value) - self.least) / (self.most - self.least)
        return self.start + share * (self.end - self.start)


def logarithmic(low, high, parts):
    """These times the powers of ten from below `low` to above `high`, or the powers alone where there are many."""
    powers = range(math.floor(math.log10(low)) - 1, math.ceil(math.log10(high)) + 2)
    ticks = [part * 10.0**power for power in powers for part in parts]
    first = max(number for number, tick in enumerate(ticks) if tick <= low * 1.0001)
    last = min(number for number, tick in enumerate(ticks) if tick >= high * 0.9999 and number > first)
    return ticks[first : last + 1] if last - first <= 7 or len(parts) == 1 else logarithmic(low, high, (1,))


def linear(high):
    """Numbers from 0 to above `high`, at most seven."""
    step = 10.0 ** math.floor(math.log10(high))
    step = next(step * part for part in (0.1, 0.2, 0.5, 1, 2) if high / (step * part) <= 6)
    return [step * number for number in range(math.ceil(high / step) + 1)]


def colours(lines):
    """A colour for each line."""
    plain, greys = iter(LINES), iter(GREYS)
    return {line: OWN.get(line) or next(greys if line.startswith("sqlite3") else plain) for line in lines}


def grid(x_axis, y_axis):
    """The lines of the ticks, and their numbers."""
    for tick in x_axis.ticks:
        x = x_axis.at(tick)
        yield f'<line x1="{x:.1f}" y1="{y_axis.end}" x2="{x:.1f}" y2="{y_axis.start}" stroke="#eee"/>'
        yield f'<text x="{x:.1f}" y="{y_axis.start + 14}" font-size="10" text-anchor="middle">{tick:,.10g}</text>'
    for tick in y_axis.ticks:
        y = y_axis.at(tick)
        yield f'<line x1="{x_axis.start}" y1="{y:.1f}" x2="{x_axis.end}" y2="{y:.1f}" stroke="#ddd"/>'
        yield f'<text x="{x_axis.start - 5}" y="{y + 3:.1f}" font-size="10" text-anchor="end">{tick:,.10g}</text>'


def curve(points, colour, x_axis, y_axis):
    """A line through its points."""
    at = [f"{x_axis.at(x):.1f},{y_axis.at(y):.1f}" for x, y in points]
    yield f'<polyline points="{" ".join(at)}" fill="none" stroke="{colour}" stroke-width="1.8"/>'
    for point in at:
        x, y = point.split(",")
        yield f'<circle cx="{x}" cy="{y}" r="2.6" fill="{colour}"/>'


def legend_of_lines(colour_of, y):
    """The names of the lines below a chart, four in a row."""
    for number, (line, colour) in enumerate(colour_of.items()):
        x, row = 20 + number % 4 * 160, y + number // 4 * 16
        yield f'<rect x="{x}" y="{row - 9}" width="10" height="10" fill="{colour}"/>'
        yield f'<text x="{x + 15}" y="{row}" font-size="11">{escape(line)}</text>'


def panel(number, title, curves, colour_of, names, are_log, places):
    """One panel of a chart: its axes, and its lines. The places on the x axis are those of all panels."""
    left = BETWEEN + number * (PANEL + BETWEEN)
    x_axis = Axis(places, are_log[0], left, left + PANEL, (1,))
    y_axis = Axis([y for each in curves.values() for _, y in each], are_log[1], HEAD + HEIGHT, HEAD)
    yield from grid(x_axis, y_axis)
    yield f'<text x="{left + PANEL / 2}" y="{HEAD - 12}" font-size="12" text-anchor="middle">{escape(title)}</text>'
    yield f'<text x="{left + PANEL / 2}" y="{HEAD + HEIGHT + 30}" font-size="11" text-anchor="middle">{escape(names[0])}</text>'
    yield f'<text x="{left - BETWEEN + 8}" y="{HEAD - 12}" font-size="11">{escape(names[1])}</text>'
    for line, each in curves.items():
        yield from curve(each, colour_of[line], x_axis, y_axis)


def chart(panels, names, are_log):
    """Lines in panels side by side: for each panel's title the points of each line by its name. All panels have the names and the
    kinds of the two axes, and the x axis itself; each has a y axis of its own."""
    colour_of = colours(dict.fromkeys(line for curves in panels.values() for line in curves))
    places = [x for curves in panels.values() for each in curves.values() for x, _ in each]
    parts = []
    for number, (title, curves) in enumerate(panels.items()):
        parts += panel(number, title, curves, colour_of, names, are_log, places)
    below = HEAD + HEIGHT + 54
    parts += legend_of_lines(colour_of, below)
    width = max(660, BETWEEN + len(panels) * (PANEL + BETWEEN))
    height = below + (len(colour_of) + 3) // 4 * 16
    head = f'<svg xmlns="http://www.w3.org/2000/svg" width="{width}" height="{height}" font-family="sans-serif">'
    return "\n".join([head, '<rect width="100%" height="100%" fill="white"/>', *parts, "</svg>"]) + "\n"
