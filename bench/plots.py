"""Draws the medians as SVG, with a line from the least to the most. Each series has a mark and a label of its own, and needs no colour."""
import math
from xml.sax.saxutils import escape

from jobs import GROWN, LABELS, ORDER, SYNCS, name_of
from report import figure

FONT = "font-family='Helvetica, Arial, sans-serif'"
MARKS = ["disc", "ring", "square", "box", "triangle", "cross", "diamond", "plus", "disc"]
COLOURS = ["#000000", "#555555", "#0b6e99", "#c0392b", "#2e7d32", "#8e44ad", "#b26a00", "#00695c", "#777777"]
SHAPES = {
    "square": "M-4,-4H4V4H-4Z",
    "box": "M-4,-4H4V4H-4Z",
    "triangle": "M0,-5L5,4H-5Z",
    "diamond": "M0,-5.5L5.5,0L0,5.5L-5.5,0Z",
    "cross": "M-4,-4L4,4M-4,4L4,-4",
    "plus": "M-5,0H5M0,-5V5",
}
UP, DOWN, SIDE = 60, 46, 12


class Canvas:
    """An SVG of a size, with what is put on it. Below its title it says what a mark is."""

    def __init__(self, width, height, title, rounds):
        self.parts = [
            f"<svg xmlns='http://www.w3.org/2000/svg' width='{width}' height='{height}' viewBox='0 0 {width} {height}'>",
            f"<title>{escape(title)}</title><rect width='{width}' height='{height}' fill='#ffffff'/>",
        ]
        self.text(SIDE, 22, title, size=15, weight="bold")
        self.text(SIDE, 40, f"A mark is the median of {rounds} rounds, the line through it goes from the least to the most", size=11)

    def text(self, x, y, words, anchor="start", size=12, weight="normal", turn=0):
        turned = f" transform='rotate({turn} {x:.1f} {y:.1f})'" if turn else ""
        self.parts.append(f"<text x='{x:.1f}' y='{y:.1f}' {FONT} font-size='{size}' font-weight='{weight}' text-anchor='{anchor}'{turned}>{escape(words)}</text>")

    def line(self, x1, y1, x2, y2, colour="#000000", width=1.0, dash=""):
        dashed = f" stroke-dasharray='{dash}'" if dash else ""
        self.parts.append(f"<line x1='{x1:.1f}' y1='{y1:.1f}' x2='{x2:.1f}' y2='{y2:.1f}' stroke='{colour}' stroke-width='{width}'{dashed}/>")

    def mark(self, x, y, peer):
        place = ORDER.index(peer)
        shape, colour = MARKS[place], COLOURS[place]
        if shape in ("disc", "ring"):
            fill = colour if shape == "disc" else "#ffffff"
            self.parts.append(f"<circle cx='{x:.1f}' cy='{y:.1f}' r='4.5' fill='{fill}' stroke='{colour}' stroke-width='1.6'/>")
        else:
            fill = "#ffffff" if shape == "box" else "none" if shape in ("cross", "plus") else colour
            self.parts.append(f"<path transform='translate({x:.1f} {y:.1f})' d='{SHAPES[shape]}' fill='{fill}' stroke='{colour}' stroke-width='1.6'/>")

    def save(self, path):
        with open(path, "w", encoding="utf-8") as out:
            out.write("\n".join([*self.parts, "</svg>"]) + "\n")


class Axis:
    """A logarithmic axis from one place to another, over what it has to show."""

    def __init__(self, values, start, end, base=10):
        low, high = min(values), max(values)
        if base == 10:
            low, high = low / 1.15, high * 1.15
        self.low, self.high, self.start, self.end, self.base = math.log(low), math.log(high), start, end, base
        if self.high == self.low:
            self.high += 1

    def at(self, value):
        return self.start + (math.log(value) - self.low) / (self.high - self.low) * (self.end - self.start)

    def ticks(self):
        """One, two and five times each power of ten; the powers alone where those are many."""
        powers = range(math.floor(self.low / math.log(10)), math.ceil(self.high / math.log(10)) + 1)
        steps = [1, 2, 5] if self.high - self.low < math.log(3000) else [1]
        return [step * 10.0**power for power in powers for step in steps if self.low <= math.log(step * 10.0**power) <= self.high]


def short(value):
    """A number at a tick."""
    for size, letter in [(1e6, "M"), (1e3, "k")]:
        if value >= size:
            return f"{value / size:g}{letter}"
    return f"{value:g}"


def apart(places, least):
    """These heights, moved so that each is so far from the next."""
    order = sorted(range(len(places)), key=places.__getitem__)
    moved = list(places)
    for _ in range(100):
        for one, other in zip(order, order[1:]):
            lacks = least - (moved[other] - moved[one])
            if lacks > 0:
                moved[one] -= lacks / 2
                moved[other] += lacks / 2
    return moved


def by_peer(rows, key, title, unit, path):
    """A line for each peer below each job, with a mark at the median."""
    if not rows:
        return
    groups = list(dict.fromkeys((row["part"], row["job"], row["callers"]) for row in rows))
    left, right, step = 120, 70, 17
    height = UP + DOWN + 16 + sum(24 + step * sum((row["part"], row["job"], row["callers"]) == it for row in rows) for it in groups)
    canvas, width, y = Canvas(760, height, title, rows[0]["samples"]), 760, UP + 4
    axis = Axis([it for row in rows for it in (row[key]["least"], row[key]["most"])], left, width - right)
    for tick in axis.ticks():
        canvas.line(axis.at(tick), UP - 6, axis.at(tick), height - DOWN, "#dddddd")
        canvas.text(axis.at(tick), height - DOWN + 16, short(tick), "middle")
    canvas.line(left, height - DOWN, width - right, height - DOWN)
    canvas.text((left + width - right) / 2, height - 10, unit, "middle")
    for part, job, callers in groups:
        y += 12
        canvas.text(SIDE, y, f"{name_of(part, job)}, {callers} {'caller' if callers == 1 else 'callers'}", weight="bold")
        for row in (it for it in rows if (it["part"], it["job"], it["callers"]) == (part, job, callers)):
            y += step
            draw_row(canvas, axis, y, row, key, left)
        y += 12
    canvas.save(path)


def draw_row(canvas, axis, y, row, key, left):
    """The mark of one peer, with its spread and its value."""
    had = row[key]
    canvas.text(left - 14, y + 4, LABELS[row["peer"]], "end")
    canvas.line(axis.at(had["least"]), y, axis.at(had["most"]), y, COLOURS[ORDER.index(row["peer"])], 2)
    canvas.mark(axis.at(had["median"]), y, row["peer"])
    canvas.text(axis.at(had["most"]) + 9, y + 4, figure(had["median"]), size=11)


def frame(canvas, across, up, ticks, unit, title, labels_up):
    """The axes of a panel, with a grid."""
    for tick in up.ticks():
        canvas.line(across.start, up.at(tick), across.end, up.at(tick), "#dddddd")
        canvas.text(across.start - 16, up.at(tick) + 4, short(tick), "end", size=11)
    for tick in ticks:
        canvas.line(across.at(tick), up.start, across.at(tick), up.start + 4)
        canvas.text(across.at(tick), up.start + 18, f"{tick}", "middle", size=11)
    canvas.line(across.start - 10, up.start, across.end + 6, up.start)
    canvas.line(across.start - 10, up.start, across.start - 10, up.end)
    canvas.text((across.start + across.end) / 2, up.start + 36, unit, "middle")
    canvas.text(across.start - 10, up.end - 12, title, weight="bold")
    if labels_up:
        canvas.text(across.start - 62, (up.start + up.end) / 2, labels_up, "middle", turn=-90)


def series(canvas, across, up, lines):
    """Curves, each with its marks, its spread and its name beside its last point."""
    ends = apart([up.at(points[-1][1]["median"]) for _, points in lines], 14)
    for (peer, points), end in zip(lines, ends):
        colour = COLOURS[ORDER.index(peer)]
        for (x1, one), (x2, two) in zip(points, points[1:]):
            canvas.line(across.at(x1), up.at(one["median"]), across.at(x2), up.at(two["median"]), colour, 1.2)
        for x, had in points:
            canvas.line(across.at(x), up.at(had["least"]), across.at(x), up.at(had["most"]), colour, 2)
            canvas.mark(across.at(x), up.at(had["median"]), peer)
        canvas.line(across.at(points[-1][0]) + 6, up.at(points[-1][1]["median"]), across.end + 12, end, "#aaaaaa", 0.8)
        canvas.text(across.end + 15, end + 4, f"{LABELS[peer]} {figure(points[-1][1]['median'])}", size=11)


def curves(rows, x, had_of):
    """The points of each peer, in order."""
    peers = [peer for peer in ORDER if any(row["peer"] == peer for row in rows)]
    return [(peer, sorted(((row[x], had_of(row)) for row in rows if row["peer"] == peer), key=lambda it: it[0])) for peer in peers]


def by_callers(rows, path):
    """How an awaited add scales with callers."""
    if not rows:
        return
    canvas = Canvas(640, 420, "Add, each awaited until it is durable, by callers", rows[0]["samples"])
    lines = curves(rows, "callers", lambda row: row["ratio"])
    ticks = sorted({row["callers"] for row in rows})
    across = Axis(ticks, 90, 490, base=2)
    up = Axis([1, *(it for _, points in lines for _, had in points for it in (had["least"], had["most"]))], 360, 66)
    frame(canvas, across, up, ticks, "callers", "", "adds for each time that two syncs take")
    canvas.line(across.start - 10, up.at(1), across.end + 6, up.at(1), "#000000", 1, "5 4")
    canvas.text(across.end + 4, up.at(1) - 5, "two syncs", "end", size=11)
    series(canvas, across, up, lines)
    canvas.save(path)


def cost(row):
    """Microseconds for one transaction: the least where the rate is the most."""
    rate = row["rate"]
    return {"median": 1e6 / rate["median"], "least": 1e6 / rate["most"], "most": 1e6 / rate["least"]}


def by_growth(rows, path):
    """What a transaction costs as variables, invariants and slots grow: a panel each, with one scale."""
    parts = [it for it in GROWN if any(row["part"] == it for row in rows)]
    if not parts:
        return
    titles = {"variables": "add, 64 at once", "invariants": "transfer", "slots": "add, 64 at once, 1024 variables"}
    units = {"variables": "variables", "invariants": "invariants over 16 variables each", "slots": "log slots"}
    canvas = Canvas(60 + 340 * len(parts), 400, "Cost of a transaction as a store grows, in memory", rows[0]["samples"])
    values = [it for row in rows for it in (cost(row)["least"], cost(row)["most"])]
    up = Axis(values, 340, 76)
    for place, part in enumerate(parts):
        those = [row for row in rows if row["part"] == part]
        ticks = sorted({row["at"] for row in those})
        across = Axis(ticks, 90 + 340 * place, 280 + 340 * place, base=2)
        frame(canvas, across, up, ticks, units[part], titles[part], "microseconds a transaction" if place == 0 else "")
        series(canvas, across, up, curves(those, "at", cost))
    canvas.save(path)


def draw_all(rows, folder):
    """All plots, of what there is."""
    durable = [row for row in rows if row["part"] == "durable" and row["job"] != SYNCS]
    memory = [row for row in rows if row["part"] in ("memory", "opening")]
    unit = "operations for each time that two syncs take (write 32 bytes, sync, write 1 byte, sync)"
    by_peer(durable, "ratio", "Durable jobs, by peer", unit, f"{folder}/jobs.svg")
    by_peer(memory, "rate", "Jobs in memory, and openings of a file, by peer", "a second", f"{folder}/memory.svg")
    by_callers([row for row in durable if row["job"] == "add"], f"{folder}/callers.svg")
    by_growth([row for row in rows if row["part"] in GROWN], f"{folder}/growth.svg")
