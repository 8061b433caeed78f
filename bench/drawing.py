"""What the pictures under docs/figures are drawn with: shapes, scales and charts, as lines of SVG. It needs Python's own library alone."""
import html
import math

COLOURS = ["#0072b2", "#d55e00", "#009e73", "#8a4f7d", "#a66f00", "#2b7fa8"]
GREY, INK = "#dddddd", "#222222"


def rect(x, y, width, height, colour):
    return f'<rect x="{x:g}" y="{y:g}" width="{width:g}" height="{height:g}" fill="{colour}"/>'


def text(x, y, words, anchor="middle", size=12, colour=INK):
    return f'<text x="{x:.1f}" y="{y:.1f}" text-anchor="{anchor}" font-size="{size}" fill="{colour}">{html.escape(words)}</text>'


def line(x1, y1, x2, y2, colour=GREY, dashes=""):
    dashed = f' stroke-dasharray="{dashes}"' if dashes else ""
    return f'<line x1="{x1:.1f}" y1="{y1:.1f}" x2="{x2:.1f}" y2="{y2:.1f}" stroke="{colour}"{dashed}/>'


def marker(shape, x, y, colour, filled=True):
    """One of four shapes, so that lines differ without their colours, too."""
    r, fill = 4, colour if filled else "#ffffff"
    look = f'fill="{fill}" stroke="{colour}" stroke-width="1.5"'
    if shape == 0:
        return f'<circle cx="{x:.1f}" cy="{y:.1f}" r="{r}" {look}/>'
    corners = [[(-r, -r), (r, -r), (r, r), (-r, r)], [(0, -r - 1), (r + 1, 0), (0, r + 1), (-r - 1, 0)], [(0, -r - 1), (r + 1, r), (-r - 1, r)]][shape - 1]
    return f'<polygon points="{" ".join(f"{x + a:.1f},{y + b:.1f}" for a, b in corners)}" {look}/>'


def page(width, height, parts):
    head = f'<svg xmlns="http://www.w3.org/2000/svg" viewBox="0 0 {width} {height}" width="{width}" height="{height}" font-family="sans-serif" fill="{INK}">'
    return "\n".join([head, rect(0, 0, width, height, "#ffffff")] + parts + ["</svg>", ""])


def short(value):
    """A number as an axis says it."""
    for size, unit in ((10**6, " M"), (1000, " k")):
        if value >= size:
            return f"{value / size:g}{unit}"
    return f"{value:g}"


class Scale:
    """From numbers to a picture's coordinates, by powers of ten or from 0."""

    def __init__(self, values, start, end, log=False):
        self.start, self.end, self.log = start, end, log
        if log:
            self.low, self.high = (10.0 ** f(math.log10(v)) for f, v in ((math.floor, min(values)), (math.ceil, max(values))))
        else:
            step = next(it for it in (0.1, 0.2, 0.5, 1, 2, 5, 10, 20, 50, 100, 200, 500, 1000) if max(values) <= 6 * it)
            self.low, self.high, self.step = 0.0, step * -(-max(values) // step), step

    def place(self, value):
        at = (math.log(value / self.low) / math.log(self.high / self.low)) if self.log else value / self.high
        return self.start + (self.end - self.start) * at

    def marks(self):
        if self.log:
            return [self.low * 10**k for k in range(round(math.log10(self.high / self.low)) + 1)]
        return [self.step * k for k in range(round(self.high / self.step) + 1)]


def ranges(title, unit, groups, names):
    """For each row of each group a line from its first number to its second, on a scale of powers of ten. A group is its heading and its rows; a row is a
    label, the two numbers and the number of its colour."""
    width, left, y = 680, 236, 74
    scale = Scale([v for _, rows in groups for _, pair, _ in rows for v in pair], left, width - 24, log=True)
    height = y + sum(26 + 18 * len(rows) for _, rows in groups) + 34
    parts = [text(width / 2, 22, title, size=15)]
    parts += [marker(0, left, 44, INK), text(left + 10, 48, names[0], "start"), marker(2, left + 110, 44, INK, False), text(left + 120, 48, names[1], "start")]
    for mark in scale.marks():
        parts += [line(scale.place(mark), 62, scale.place(mark), height - 34), text(scale.place(mark), height - 20, short(mark))]
    parts.append(text((left + width) / 2, height - 4, unit))
    for heading, rows in groups:
        parts.append(text(10, y, heading, "start", 13))
        for label, (low, high), colour in rows:
            y += 18
            a, b, drawn = scale.place(low), scale.place(high), COLOURS[colour]
            parts += [text(left - 12, y + 4, label, "end"), line(a, y, b, y, drawn), marker(0, a, y, drawn), marker(2, b, y, drawn, False)]
        y += 26
    return page(width, height, parts)


def bars(title, unit, groups, beside=None, log=False):
    """A bar and its number for each row of each group, from left to right. `beside` is a number with a line of its own, and what it means."""
    width, left, y = 680, 236, 62
    scale = Scale([v for _, rows in groups for _, v, _ in rows] + ([beside[0]] if beside else []), left, width - 60, log)
    height = y + sum((22 if heading else 0) + 20 * len(rows) for heading, rows in groups) + 40
    parts = [text(width / 2, 22, title, size=15), text((left + width) / 2, height - 6, unit)]
    for mark in scale.marks():
        parts += [line(scale.place(mark), 46, scale.place(mark), height - 38), text(scale.place(mark), height - 24, f"{mark:g}")]
    for heading, rows in groups:
        if heading:
            parts.append(text(10, y + 2, heading, "start", 13))
            y += 22
        for label, value, colour in rows:
            parts += [text(left - 8, y + 4, label, "end"), rect(left, y - 6, round(scale.place(value) - left, 1), 12, COLOURS[colour])]
            parts.append(text(left + 6, y + 4, f"{value:g}", "start", 11, "#ffffff"))
            y += 20
    if beside:
        x = scale.place(beside[0])
        parts += [line(x, 46, x, height - 38, INK, "5 3"), text(x, 42, beside[1], "end")]
    return page(width, height, parts)


def curves(title, across, labels, lines, box, log=False, dashed=None):
    """A panel in a box (left, top, right, bottom): lines over these labels, each with a shape of its own and its name at its end. `dashed` is a line without
    shapes. The parts of a picture."""
    left, top, right, bottom = box
    all_lines = lines + ([dashed] if dashed else [])
    scale = Scale([v for _, values in all_lines for v in values if v is not None], bottom, top, log)
    step = (right - left) / max(1, len(labels) - 1)
    parts = [text(left, top - 14, title, "start", 13), text((left + right) / 2, bottom + 36, across)]
    for mark in scale.marks():
        parts += [line(left, scale.place(mark), right, scale.place(mark)), text(left - 8, scale.place(mark) + 4, short(mark), "end")]
    parts += [text(left + step * k, bottom + 18, it) for k, it in enumerate(labels)]
    for k, (name, values) in enumerate(all_lines):
        colour = COLOURS[k] if (name, values) in lines else "#777777"
        points = [(left + step * at, scale.place(v)) for at, v in enumerate(values) if v is not None]
        dashes = ' stroke-dasharray="5 4"' if (name, values) == dashed else ""
        parts.append(f'<polyline points="{" ".join(f"{x:.1f},{y:.1f}" for x, y in points)}" fill="none" stroke="{colour}" stroke-width="2"{dashes}/>')
        parts += [marker(k % 4, x, y, colour) for x, y in points] if not dashes else []
        parts.append(text(points[-1][0] + 10, points[-1][1] + 4, name, "start", 12, colour))
    return parts
